//! The texts of `--help`.

pub fn text(command: &str) -> &'static str {
    match command {
        "train" => TRAIN,
        "encode" => ENCODE,
        "decode" => DECODE,
        "convert" => CONVERT,
        "inspect" => INSPECT,
        "around" => AROUND,
        "demo" => DEMO,
        _ => ALL,
    }
}

const ALL: &str = "\
nuqtelya: a vector quantiser whose training, writing and reading are proved

  nuqtelya train     trains a codebook on vectors or samples
  nuqtelya encode    stores vectors as codes, by a codebook
  nuqtelya decode    makes vectors of codes again
  nuqtelya convert   rewrites codes whose norms have four bytes, and back
  nuqtelya inspect   shows what a file holds
  nuqtelya around    shows which codewords lie around a block, not only the nearest
  nuqtelya demo      all of it, on data that it makes itself

Each has its own --help. docs/FILES.md has the layout of every file and the rules by which what is not handed in is
made. An output gets its name when it is complete: a run that fails or is stopped leaves the old file, or none. It
cannot be one of the run's inputs.

Exit codes: 0 done; 1 refused, by a number of the library that is shown with its meaning; 2 wrong use; 3 a file is
missing, has the wrong length or content, or cannot be written; 4 too little memory.
";

const TRAIN: &str = "\
nuqtelya train --dim D --block K --codewords N (--vectors FILE | --samples FILE) --out FILE [options]

Trains N codewords of K values on blocks of vectors of D values, and writes them with profile, report and rotation.

  --dim D               values in a vector; a multiple of K, at most 4096 or so (D × D at most 16777216)
  --block K             values in a block, below D and at most 256
  --codewords N         from 2 to 1048576
  --vectors FILE        binary32 values, vector after vector: the samples are made from them
  --samples FILE        binary64 values, K for each sample: used whole, as they are
  --out FILE            the codebook
  --training-samples S  samples to make from vectors, from N to 10000000
                        (default: 30 × N, at least 256 and at most 10000000)
  --start FILE          N × K binary64 values: the starting codebook
  --matrices FILE       (R - 1) × K × K binary64 values: what the start is multiplied by in the restarts after the first
  --rotation FILE       D × D binary64 values, row by row: what a vector is multiplied by before it is cut in blocks
  --seed NUMBER         for all that is made and not handed in (default 1)
  --restarts R          1 to 1024 (default: the profile's)
  --iterations I        rounds in each restart, 1 to 100000 (default: the profile's)
  --empty-cells WHAT    split (the default): a cell without samples is filled from the worst one; fail: it is refused
  --event-slots COUNT   room for repairs; one more is refused (default: as many as there can be, at most 1048576)
  --anyway              begin even if the system says that it has too little memory

What is not handed in is made from the vectors and the seed:
  samples   S blocks of the vectors, drawn without repetition (with, if there are too few), each vector divided by its
            norm and rotated before: what encoding searches for
  start     N of the samples, drawn by their places
  matrices and rotation: random orthogonal matrices

Before it begins it says what memory it takes. Beside the samples that is start, matrices, rotation, codewords, work and
event slots; none of these grows with S. At the end it says the mean errors of start and codebook, and which restart
won, or that the start was kept, since no restart's error was below its own.
";

const ENCODE: &str = "\
nuqtelya encode --codebook FILE --vectors FILE --out FILE

Writes a code for each vector (binary32 values, as many for each as the codebook's vectors have). A vector that cannot
be encoded, as one of zeros, is refused with its place, counted from 0, and nothing is written.

A vector's norm is stored as the nearest binary16 value, rounded once from binary64, ties to even. Where that is zero or
infinite, as for norms up to 2^-25 and from 65520 on, the vector is refused.

At the end it says for how many blocks the choice of the codeword was a toss, since another codeword had the same
distance (as it is rounded), and in how many of the codes. The first of them is stored; the codes do not tell.
";

const DECODE: &str = "\
nuqtelya decode --codebook FILE --codes FILE --out FILE

Writes the vector of each code as binary32 values. A code that is damaged or does not fit the codebook is refused with
its place, counted from 0, and nothing is written.
";

const CONVERT: &str = "\
nuqtelya convert --codebook FILE --codes FILE --to binary16|binary32 --out FILE

Rewrites codes of an older collection, whose norms have four bytes (binary32, the Rust's F32Reference), as codes that
encode and decode know (--to binary16); or such codes as older ones (--to binary32). Nothing but the norm and its length
changes: the converted code is read as the old one was with its norm of four bytes, and converting back gives the same
file.

Towards binary16 a norm is never rounded: a code whose norm binary16 does not hold exactly is refused (27). So is one that
is damaged (8, 9) or has a norm of the other length (8), one whose width or number of blocks is not the codebook's (17),
and one whose norm is not finite and above zero (10). The place of the first that is refused, counted from 0, is shown,
and nothing is written. Every norm of binary16 can go back. That an index has a codeword is not tested here: decode does
that.
";

const INSPECT: &str = "\
nuqtelya inspect FILE [--codebook FILE] [--doubles] [--repairs] [--values]

Shows a codebook's shape, how it was trained, its report (also which restart won, or that the start was kept; a file of
version 1 does not tell restart 0 from the start) and repairs; or, of a file of codes, how many there are, how many of
them are doubles, and the head of the first or, with its codebook, whether all can be read.

  --codebook FILE  the codebook of a file of codes: whatever is no codebook itself is then read as codes of it
  --doubles        of codes: a line for each double, with its number and that of the first code that is the same;
                   whatever is no codebook is then read as codes
  --repairs        all repairs and not only the first ten
  --values         the codewords

A double is a code with the same bytes as an earlier one of the file. Codes that decode accepts with one codebook have
the same bytes exactly when the bits of their norms and their indices are the same, and so have older codes that convert
accepts (proved: docs/STATEMENT.md, K13). So bytes are enough to tell. A code does not name its codebook: among the codes
of several, doubles may stand for different vectors. An older code and what convert makes of it are no doubles.

Without a codebook too the whole file is read, each code as long as its own head says: codes of different shapes and
older ones may be in it. A code has to be a frame (8) with indices of a width from 1 to 32 and no padding bit set (9);
the first that is refused is told with its place, counted from 0. A damaged head may still fit, and take in the codes
after it: with the codebook each code is held to its shape, and norm and indices are tested too.

For doubles it holds, beside a fixed part and the longest code three times, at most 90 bytes for each code that is no
double, whatever its length, and with --doubles at most 48 for each double. Earlier codes are not held but read again.
";

const AROUND: &str = "\
nuqtelya around --codebook FILE (--vectors FILE [--vector P] [--only I] | --blocks FILE) --radius R

Shows, for each block of one vector or of a file, how many of the N codewords lie within the radius, and then a line for
each of them with its number, its squared distance and its distance. The lines of a block are in no promised order.

  --codebook FILE  the codebook
  --vectors FILE   binary32 values, vector after vector: the blocks of one of them are shown, as encode searches for them
  --vector P       which one, counted from 0 (default 0)
  --only I         only this block of it, counted from 0
  --blocks FILE    binary32 values, as many for each block as the codebook's have: blocks that are taken as they are
  --radius R       how far, a decimal number

Distances are in the units of the search: before it, a vector is divided by its norm and rotated. So they don't grow with
the vector, and blocks from a file are compared with the codewords directly.

A codeword is within if its squared distance, as the search works it out, is at most the radius times itself, rounded once.
Radius 0 finds exact hits only: codewords with the values of the block, plus and minus zero being equal; so does a radius
whose square becomes 0. From 2^512 on, about 1.34e154, the square is infinite and all are within. A radius that is negative
or not finite is refused (21); minus zero is zero. The nearest codeword, which encode stores for a block of a vector, is
shown if any is. The distance of a line is the root, rounded so that as a radius it finds the codeword again.

A vector that cannot be encoded is refused as encode refuses it, and a block with a value that is not finite by 18, each
with its place, counted from 0. Blocks before that are shown.
";

const DEMO: &str = "\
nuqtelya demo [--folder FOLDER]

Makes vectors, trains, encodes, decodes, and shows report, repairs, sizes, tosses, the error before and after, and a
picture. The files stay in the folder (default: nuqtelya-demo in the system's folder for temporary files).
";
