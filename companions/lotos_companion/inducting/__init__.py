"""Proofs for `lotos induct`, searched: lemmas go in, a certificate comes out, and the program alone says whether it is one."""
