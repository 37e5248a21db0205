//! Longer texts of the command's help.

/// How records are written.
pub const RECORDS: &str = "\
A record is hexadecimal digits, or words: VERB RESOURCE [as NUMBER] [BODY]
  VERB      CREATE, RETRIEVE, UPDATE, DELETE or OBSERVE
  RESOURCE  /weight, /tare, /oic/sec/acl2, ..
  NUMBER    the sender's credential number; without one the sender is unauthenticated
  BODY      hex:00ff, text:lorry, or fields:
    UPDATE /oic/sec/doxm   owner=UUID
    UPDATE /oic/sec/pstat  state=RFPRO
    UPDATE /oic/sec/cred   number=7 subject=UUID [role=7@2] [type=1]
    UPDATE /oic/sec/acl2   number=1 subject=UUID permission=RU resources=/tare,/weight
                           [first=2026-07-01] [last=2026-09-30]
    UPDATE /oic/sec/roles  role=7@2 [last=2026-07-01T18:00]
    UPDATE of the first four resources also row-owner=UUID
    DELETE /oic/sec/cred   number=7, subject=UUID or all; DELETE /oic/sec/acl2 number=1 or all
  The subject of an access row is a UUID, role:7@2 (role 7 of authority 2), auth-crypt or anon-clear.
  Resources may be the wildcards +, - and *. `none` is the nil UUID.
";

/// How lines of records are written.
pub const LINES: &str = "
- stands for lines from standard input, @FILE for lines of a file: one record to a line, # begins a comment.
A line may begin with `at TIME`, which sets the clock from there on, and then say `hand-in RECORD` or `take`.

Examples:
  tillerclover judge yard.tables UPDATE /tare as 7 text:lorry
  tillerclover judge yard.tables 'RETRIEVE /weight' 52400007
  tillerclover judge yard.tables - < records.txt
";

/// How rows of a list are written.
pub const MAKE: &str = "\
A row in words: number=1 subject=UUID permission=RU resources=/tare,/weight [first=2026-07-01] [last=2026-09-30]
A row as JSON:  {\"aceid\":1,\"subject\":{\"uuid\":..},\"resources\":[{\"href\":\"/tare\"}],\"permission\":6}
The keys first and last of a season, as seconds or dates, are an extension: the office's own form has none.
";

/// What a file of expectations holds.
pub const EXPECT: &str = "\
The file:
  tables = \"yard.tables\"                       # beside this file
  clock = 2026-07-01T06:00:00Z                  # where an expectation has none; now where there is none at all
  sequence = false                              # true: each on the tables that the one before left
  [[expect]]
  name = \"the haulier tares in the season\"
  record = \"UPDATE /tare as 7\"                  # or hand-in = \"..\", or take = true
  answer = 0                                    # or \"not permitted\", or \"refused\" for any refusal
  permission = \"RU\"                            # where that matters
";

/// What the exit status says.
pub const EXIT: &str = "\
Exit status:
  0  permitted, sound, accepted, the same
  1  refused, not sound, not accepted, different
  2  not done; the reason is one line among the errors
  3  not done, since another process holds the file
  4  the file WAS changed, but the report could not be written, or a power cut may take it back";
