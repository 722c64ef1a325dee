# The cases of the four programs, which tests/programs/make runs under qemu-riscv64 and tests/black-box/run under ddc. Each calls
#
#     program_case NAME PROGRAM WORD..
#
# which the script that reads this file defines. No case has a `/` inside a file's name, a directory, or a file from outside: there Linux
# and docs/reference/calls.md differ.

name_255=$(printf 'n%.0s' $(seq 255))
name_256=n$name_255
# 121,500 bytes of hex0 in one word, near the most that a start allows.
long_source=$(printf '7f 45 # a line of 27 bytes\n%.0s' $(seq 4500))
many=$(printf 'a %.0s' $(seq 400))

program_case 'hex0: a commented source' hex0 put a $'# a\n7F 4\n5;x' a b
program_case 'hex0: nothing' hex0 put a '' a b
program_case 'hex0: every byte is passed over but digits' hex0 put a $'g0xZ1\t-a\rB,\xc3\xa4 f' a b
program_case 'hex0: a digit is left alone' hex0 put a '7f4' a b
program_case 'hex0: comments alone' hex0 put a $'# 11\n;22' a b
program_case 'hex0: digits on both sides of a comment' hex0 put a $'1 # 23\n4' a b
program_case 'hex0: a source in one long word' hex0 put a "$long_source" a b
program_case 'hex0: many pages' hex0 fill a 2000 a b
program_case 'hex0: in place of a longer file' hex0 put b 'longer than two bytes' put a 7f45 a b
program_case 'hex0: the binary is the source' hex0 put a 7f45 a a
program_case 'hex0: names that begin with ./' hex0 put ./a 7f45 ././a ./b
program_case 'hex0: a name with blanks and letters past ASCII' hex0 put 'a ä' 7f45 'a ä' $'b\n'
program_case 'hex0: a name of 255 bytes' hex0 put "$name_255" 7f "$name_255" b
program_case 'hex0: no words' hex0
program_case 'hex0: one word' hex0 put a 7f a
program_case 'hex0: three words' hex0 put a 7f a b c
program_case 'hex0: no such source' hex0 none b
program_case 'hex0: an empty name' hex0 '' b
program_case 'hex0: a source with a name of 256 bytes' hex0 "$name_256" b
program_case 'hex0: a binary with an empty name' hex0 put a 7f a ''
program_case 'hex0: a binary with a name of 256 bytes' hex0 put a 7f a "$name_256"
program_case 'hex0: a file that cannot be laid' hex0 put '' 7f a b

program_case 'sha256: abc' sha256 put a abc a
program_case 'sha256: nothing' sha256 put a '' a
program_case 'sha256: 55 and 56 bytes' sha256 put a "${name_255:0:55}" put b "${name_255:0:56}" a b
program_case 'sha256: 63, 64 and 65 bytes' sha256 put a "${name_255:0:63}" put b "${name_255:0:64}" put c "${name_255:0:65}" a b c
program_case 'sha256: pages' sha256 fill a 3000 a
program_case 'sha256: more bytes in one word' sha256 put a "$long_source" a
program_case 'sha256: a file 400 times' sha256 put a abc $many
program_case 'sha256: a file among absent ones' sha256 put a abc none a ''
program_case 'sha256: no words' sha256
program_case 'sha256: a name of 256 bytes' sha256 "$name_256"
program_case 'sha256: a name that asks for a file' sha256 put put put ./put
program_case 'sha256: a word too few to lay a file' sha256 put a

program_case 'sort: lines' sort put a $'pear\napple\n\nfig\napples\nApple\n' a
program_case 'sort: nothing' sort put a '' a
program_case 'sort: an empty line' sort put a $'\n' a
program_case 'sort: a last line without an end' sort put a $'b\na' a
program_case 'sort: equal lines' sort put a $'b\na\nb\na\nb\n' a
program_case 'sort: bytes past ASCII' sort put a $'ö\nz\n\xf0\x9f\x8c\xb1\nä\n\x7f\n\x01\n' a
program_case 'sort: into another file' sort put a $'b\na\n' a b
program_case 'sort: into the same file' sort put a $'c\nb\na\n' a ./a
program_case 'sort: in place of an older file' sort put b 'what was there before' put a $'b\na\n' a b
program_case 'sort: a heap of many pages' sort fill a 5000 a b
program_case 'sort: a heap of many pages, to the stream' sort fill a 1500 a
program_case 'sort: one long line' sort put a "${long_source//$'\n'/ }" a b
program_case 'sort: no words' sort
program_case 'sort: three words' sort put a b a b c
program_case 'sort: no such file' sort none b
program_case 'sort: a result with an empty name' sort put a $'b\na\n' a ''
program_case 'sort: a result with a name of 256 bytes' sort put a $'b\na\n' a "$name_256"

program_case 'atomics: a text' atomics put a 'Hello, chain!' a
program_case 'atomics: nothing' atomics
program_case 'atomics: bytes past ASCII' atomics put a $'\xc3\xbf\xf0\x9f\x8c\xb1\x7f\x01' put b 'ä' a b
program_case 'atomics: two files, one of them twice' atomics put a 7f45 put b zzz a b a
program_case 'atomics: many bytes' atomics fill a 100 a
program_case 'atomics: no such file' atomics none
