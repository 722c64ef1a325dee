// Constants.
enum { A, B, C };
enum { D = 10, E, F = -3, G, H = 'x', I, J = B, K = -D, L = 0x7fffffff, };
enum { M = -'a', N = -0 };
enum { SIZE = 3 };
long rows[SIZE];
long begin(long *stack) {
    number(A); number(B); number(C); number(D); number(E); number(F); number(G); number(H); number(I); number(J); number(K); number(L); number(M); number(N); line();
    rows[B] = C; number(rows[1] + E * 2 - F); long D = 4; number(D); { long E = D; number(E); } number(E); number(-F);
    line();
    return A;
}
