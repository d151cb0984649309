//! Parts of the help that several commands have.

pub const VALUES: &str = "
VALUES are the values of the strain's wells, with commas, semicolons or spaces between: whole
numbers from -32,768 to 32,767.
";

pub const LINES: &str = "
Of a file of lines, these are passed over: empty lines, remarks (`# ` and words), and a first line
that names the columns. Its first field is plate, label, sample, well, well 1 or w1 in a file of
plates, and code or strain in another; the others are such as well 2, A2 or name. Every other line
is used, or told to be wrong.
";

pub const NAMES: &str = "
  --names FILE   the strains' names: a line for each, code and name with a comma, a semicolon or
                 a space between";

pub const CSV: &str = "
  --csv          values between commas, with a line that names the columns, in place of tables;
                 a plate without strains has a line too
";
