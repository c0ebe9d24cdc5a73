//! Inputs of the program with what it prints for them.

/// The program's example: its input.
const EXAMPLE_INPUT: &[u8] = b"least most
1 20000
low high words
0 0 7
0 1 1
0 1 1

word
7
7
1
1
1
1
";

/// The program's example: its output.
const EXAMPLE_OUTPUT: &[u8] = b"count high low
2 0 6
row slot front back
1 1 1 1
1 2 3 3
1 3 4 5
2 1 2 2
2 2 4 4
2 3 5 6
";

/// The program's example with other words and sentence ends: its input.
const CUT_INPUT: &[u8] = b"least most
1 20000
low high words
0 0 7
0 1 1
0 1 1

word
7
7
1
1
0
7
1
0
1
7
1
1
1
";

/// The program's example with other words and sentence ends: its output.
const CUT_OUTPUT: &[u8] = b"count high low
2 0 5
row slot front back
1 1 1 2
1 2 3 3
1 3 4 4
2 1 10 10
2 2 11 12
2 3 12 13
";

/// An example with excluding slots: its input.
const EXCLUDING_INPUT: &[u8] = b"least most
1 20000
low high words
0 0 1
0 1 !1
0 1 1
0 0 !

word
1
4
5
1
2
1
6
0
6
1
";

/// An example with excluding slots: its output.
const EXCLUDING_OUTPUT: &[u8] = b"count high low
2 0 3
row slot front back
1 1 1 1
1 2 2 3
1 3 4 4
1 4 5 5
2 1 4 4
2 2 5 5
2 3 6 6
2 4 7 7
";

/// The examples: the input and the output of each.
pub const EXAMPLES: [(&[u8], &[u8]); 3] =
    [(EXAMPLE_INPUT, EXAMPLE_OUTPUT), (CUT_INPUT, CUT_OUTPUT), (EXCLUDING_INPUT, EXCLUDING_OUTPUT)];
