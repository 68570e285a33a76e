//! A package wants a library or a program; there are only tests here.
