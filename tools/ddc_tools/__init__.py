"""What the tools share: the call of ddc, and the texts of recipes, reports, saves and scripts."""
