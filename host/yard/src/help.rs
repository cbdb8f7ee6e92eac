//! What `yard --help` prints.

pub const TEXT: &str = "\
yard: checks a yard's binding list, routes orders by it, and shows why.

  yard check LIST                     is the list accepted, and how much room is left
  yard route LIST [SUBJECT..]         where each order goes, and which lines of the list say so
  yard move LIST [SUBJECT..]          where all orders of a move go, or which one holds them up
  yard tree LIST                      the table that is built from the list, drawn as a tree
  yard crossing LIST                  which lines can meet in one order, which is then Ambiguous
  yard crossing LIST PATTERN          which lines a new line with this pattern would meet
  yard crossing PATTERN PATTERN       an order that both patterns match, or that there is none
  yard load START LINES               a heavy list drawn from START, the same on every bench
  yard parse TEXT..                   what each text is as a pattern and as a subject
  yard matches PATTERN SUBJECT        whether one pattern matches one subject
  yard texts FILE                     both, for all lines `pattern TEXT` and `subject TEXT` of a file

LIST is a file, or - for standard input. Where no SUBJECT is given, subjects are read from standard
input, one a line; there, empty lines and lines that begin with # are passed over.

Of two words behind crossing, the first is a LIST if it is -, has a / in it, or names a file that is
there; else both are patterns. So yard.list is a pattern where no file has that name; with --patterns
it is one anywhere.

Options
  --json          answers for programs: one JSON object a line (not for texts)
  --verbose, -v   route, move: the peak, and every matching line of an ambiguous order; tree: node
                  numbers; crossing LIST: every pair of lines, with its order
  --patterns      crossing: both words are patterns, whatever files there are
  --depth N       tree: no more than N tokens deep
  --under TOKENS  tree: only what lies below these tokens, as yard.north or yard.*
  --subjects N    load: not the list, but N subjects that are drawn behind its last line
  --              what follows is no option, even where it begins with a dash
  --help, -h      this text
  --version, -V   the version

A binding list has one line for each binding: a pattern, blanks, and a target (a panel's number,
0 to 4294967295). The target is the last word, so a pattern may have blanks inside. A line that
begins with # is a comment, and so is what stands behind a target from a # on; empty lines are
passed over.

    # points of the north yard
    yard.north.points.>           12
    yard.*.signal.*.aspect        40     # all signals, to the signaller

Tokens stand between dots. In a pattern, * stands for one token, > at the end for one or more.
Verdicts: `Routed to N`, exactly one line matches; `NoStream`, none does, and the order goes nowhere;
`Ambiguous`, several do, and the order goes nowhere. Matching lines are shown in the router's order:
those ending in > first, the shorter first; then the others; a name before *; equal patterns as listed.

A move has 64 orders at the most, and half a move is worse than none: either all of them are routed, or
none goes out. The first order that is NoStream or Ambiguous holds the move up, and those behind it are
not looked at. But all subjects are read before any order is routed, and the first that is refused holds
the move up, whatever the verdicts are.

Two lines meet where both match one order. It is Ambiguous even if they have the same target. An order
that crossing shows is one example: no order that both match is shorter, and further lines may match it.

A load is drawn from START, a number from 1 to 18446744073709551615, one line behind another: patterns
of 1 to 6 tokens, each a letter from a to h or a *, the last perhaps a >, with the targets 1, 2 and so
on. LINES is 2048 at the most; N has no limit. The same numbers give the same load on every bench:

    yard load 1 1600 >heavy.list
    yard load 1 1600 --subjects 500 >orders
    yard route heavy.list <orders

It is for times and comparisons, and no yard: a line as > matches every order, so nearly all of them
are Ambiguous.

Refusals are shown with the number and name of the router's rules. Lines, tokens, bytes and the orders
of a move are counted from 1.

Exit status
  0   the list is accepted; every subject is routed; every text is accepted; the pattern matches;
      no order can meet two lines, the new line and another, or both patterns; the load is written
  1   some subject is not routed (NoStream, Ambiguous or refused); a move is held up or refused; a text
      is refused; no match; crossing shows an order
  2   the list is refused, a text of matches or crossing, or the start of a load; the command line is
      wrong, or a file cannot be read or written
";
