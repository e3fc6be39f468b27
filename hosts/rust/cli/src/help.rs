//! What `--help` and `--version` show.

pub const VERSION: &str = concat!("station ", env!("CARGO_PKG_VERSION"), "\n");

pub const ALL: &str = "\
The station cuts, checks, lists, saves and draws PDB coordinate entries, finds atoms in them, and tells their fractional places.

usage:
  station cut FILE --out FILE [--force] [-q]
  station check FILE.. [--all] [--json | --report] [-q]
  station find FILE SERIAL..
  station cell FILE
  station fractional FILE SERIAL.. | FILE [--xyz] X Y Z
  station fragments FILE [--aside LIST] [--keep LIST]
  station save FILE [--aside LIST] [--keep LIST] --out FILE [--tray FILE] [--force] [-q]
  station draw FILE --svg FILE [--aside LIST] [--keep LIST] [--model N] [--force] [-q]
  station COMMAND --help
  station --version

A FILE that is read may be - for standard input, one that is written - for standard output. Behind -- all words are files;
--out=FILE takes any name. With -q nothing is said of what goes well.

A LIST has commas between fragment numbers, ranges (7-9), residue names (HOH; name:017 if it is all digits), chain:B,
residue:B:7 (or residue:B:7A, with its insertion code), waters and ligands; fragments shows the words of each fragment.

examples:
  station cut 1abc.ent --out 1abc.pdb
  station check 1abc.pdb
  station check incoming/ archive/2024/
  station find 1abc.pdb 1179
  station cell 1abc.pdb
  station fractional 1abc.pdb 1179
  station fragments 1abc.pdb
  station save 1abc.pdb --aside waters,5 --out bare.pdb --tray tray.pdb
  station draw 1abc.pdb --svg 1abc.svg

Exit status: 0 granted and done, 1 refused or not found, 2 could not be read or written, or not understood.
";

pub const CUT: &str = "\
usage: station cut FILE --out FILE [--force] [-q]

Cuts a public entry to the lines that the station knows. Lines of unknown kinds are dropped, and their kinds and numbers told.
Lines under 80 columns are filled up with blanks, and a carriage return before a newline is dropped. MASTER, with the counts of
the lines that are left, and END are written anew. Every other line keeps its columns, byte for byte, and its place. Then the
result is checked: it is written also if it is refused.

  --out FILE  where the entry goes; a file is written whole or not at all, - is standard output
  --force     replace a file that exists
  -q          say nothing if the result is granted

examples:
  station cut 1abc.ent --out 1abc.pdb
  zcat pdb1abc.ent.gz | station cut - --out 1abc.pdb

Exit status: 0 cut and granted, 1 cut and written, but the check refuses it (or there was no line to keep, and nothing was
written), 2 could not be read or written.
";

pub const CHECK: &str = "\
usage: station check FILE.. [--all] [--json | --report] [-q]

Checks each FILE, each entry in a folder and its folders, or standard input (-), and says in words whether it is
granted; the line that is refused is shown, and the cause is told in words. Where a field of it is wrong, it is marked, and
its name, its columns, what stands there and what is allowed there are told. In a folder the entries are the files with names
in .pdb or .ent, packed (.gz) or not; hidden files are passed over.

  --all     go on after the first offence: leave out each line that offends, check the rest again, and list what was
            found, names that are not known once each. This is advice and no verdict: a line may offend only because
            another was left out. After 1000 offences, or when too many lines were walked over, the search ends and says so.
  --json    print an object of JSON for each file, on a line by itself: what --report lists, the meaning of the number, and
            the cause in words; with --all the advice as well
  --report  print the listing of the report program instead: thirteen lines key=value. The program takes at most 65529
            bytes, this command takes more. With several files a line file=NAME comes first.
  -q        show nothing of files that are granted

examples:
  station check 1abc.pdb
  station check --all 1abc.pdb
  station check --json incoming/
  station check --report 1abc.pdb
  zcat 1abc.pdb.gz | station check -

Exit status: 0 all granted, 1 one or more refused, 2 one or more could not be read.
";

pub const FIND: &str = "\
usage: station find FILE SERIAL..

Shows the line of the atom with each SERIAL: its number, the line itself, and its fields by name. The file need not be an
accepted entry: it is the first ATOM or HETATM line with the serial that reads by itself, so it is that of the first model that
has it; lines that do not read are passed over.

examples:
  station find 1abc.pdb 1179
  station find 1abc.pdb 1179 746 1184
  zcat 1abc.pdb.gz | station find - 1179

Exit status: 0 all found, 1 one or more stand on no line, 2 could not be read, or not understood.
";

pub const CELL: &str = "\
usage: station cell FILE

Shows the crystal frame of an accepted entry: the edges and angles of its cell, the space group and Z (CRYST1), and the rows of
its ORIGX and SCALE lines, each with the coefficients of x, y and z and the shift. An entry may have none or some of these lines;
what it lacks is told.

examples:
  station cell 1abc.pdb
  zcat 1abc.pdb.gz | station cell -

Exit status: 0 shown, 1 refused, 2 could not be read.
";

pub const FRACTIONAL: &str = "\
usage: station fractional FILE SERIAL.. | FILE [--xyz] X Y Z

Tells the fractional places of atoms, or of one place, by the SCALE lines of an accepted entry: exactly, to nine decimals, and
rounded to five, a half away from zero. An atom is that of the first model that has its serial.

Whole numbers are serials. Three numbers of which one or more have a point are coordinates in angstroms, with up to three
decimals, from -999.999 to 9999.999.

  --xyz  the three numbers are coordinates, also where none has a point

examples:
  station fractional 1abc.pdb 1179
  station fractional 1abc.pdb 1179 746 1184
  station fractional 1abc.pdb 11.281 -0.5 0.007
  station fractional 1abc.pdb --xyz 10 20 30

Exit status: 0 told, 1 refused or not found, 2 could not be read, or not understood.
";

pub const FRAGMENTS: &str = "\
usage: station fragments FILE [--aside LIST] [--keep LIST]

Lists the fragments of an accepted entry: number, model if the entry has models, chain, residues, atoms, first and last
residue, whether it is in or set aside, and the words that choose it. The numbers go through all models.

  --aside LIST  set these fragments aside first: numbers, ranges and words, such as 2,7-9,HOH,chain:B
  --keep LIST   set all but these aside first; with --aside, leave these in

Words choose whole fragments. A residue name and residue:B:7 choose those that have no other residue, chain:B all of chain B,
waters those of HOH, DOD, WAT or H2O alone, ligands those of HETATM lines without TER that are no waters. It is no error if
there are no waters or no ligands, or if a fragment is chosen twice.

examples:
  station fragments 1abc.pdb --aside 2,5
  station fragments 1abc.pdb --aside ligands --keep HEM

Exit status: 0 listed, 1 refused, 2 could not be read.
";

pub const SAVE: &str = "\
usage: station save FILE [--aside LIST] [--keep LIST] --out FILE [--tray FILE] [--force] [-q]

Saves an accepted entry without the fragments set aside, and what is left out of it to the tray. Both files are written
whole or not at all, the tray first, and not mixed with those of another save to the same names. The input is never written
to. Of an entry with models all MODEL and ENDMDL lines are saved, and copied to the tray; a CONECT line stays as long as each
of its numbers has an atom in some model.

  --aside LIST  the fragments to set aside: numbers, ranges and words (station fragments --help), such as 2,7-9,waters
  --keep LIST   set all but these aside; with --aside, leave these in
  --out FILE    where the entry goes; - is standard output
  --tray FILE   where the lines go that are left out, likewise; needed if a fragment is set aside
  --force       replace files that exist
  -q            say nothing if all goes well

examples:
  station save 1abc.pdb --aside waters --out dry.pdb --tray water.pdb
  station save 1abc.pdb --keep chain:A,HEM --out bare.pdb --tray tray.pdb
  station save 1abc.pdb --aside 2,5 --out - --tray tray.pdb | station check -
  station save 1abc.pdb --aside 2,5,9-25010 --out=-bare.pdb --tray tray.pdb --force

Exit status: 0 saved, 1 refused, 2 could not be read or written.
";

pub const DRAW: &str = "\
usage: station draw FILE --svg FILE [--aside LIST] [--keep LIST] [--model N] [--force] [-q]

Draws a dot for each atom and a stroke for each bond of a CONECT line, seen along z on a white ground: what is nearer is
stronger and covers what is farther. Neighbours are joined by sticks: two atoms not farther apart than their covalent radii
and 0.45 angstrom. That is a rule of the picture; nothing in the file says so, and metals are not joined. Waters are small,
chains and ligands have labels, ligands and the residues within 4.5 angstrom of one cover all else, and the ligand with the
most atoms is shown once more with these. Places are drawn as they are in the file. Of a refused entry the good lines are
drawn, and a note says so. Of an entry with models one is drawn.

  --svg FILE    where the picture goes; a file is written whole or not at all, - is standard output
  --aside LIST  fragments to leave out (of an accepted entry): numbers, ranges and words (station fragments --help)
  --keep LIST   leave out all but these; with --aside, draw these all the same
  --model N     the model to draw; without it the first that has an atom to draw
  --force       replace a file that exists
  -q            say nothing if all goes well

examples:
  station draw 1abc.pdb --aside 2 --svg 1abc.svg
  station draw 2def.pdb --model 20 --svg last.svg

Exit status: 0 drawn, 1 refused or nothing to draw, 2 could not be read or written.
";
