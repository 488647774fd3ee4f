"""Texts of --help that several commands have."""

OVERVIEW = """Typed BSON, for people with dumps of MongoDB.

You write the types that documents should have as a shape, such as {name:string,age:i64}. Each document is read at the shape and written anew with those
fields and types. One that does not fit is refused, and kept with the path and the cause.

\b
tbson profile people.bson                 what is in there?
tbson infer people.bson > people.shape    a shape that all documents fit; edit it
tbson check -f people.shape people.bson   does each document fit?
tbson migrate -f people.shape people.bson typed.bson --rejects refused.bson
tbson merge typed.bson refused.jsonl repaired.bson whole.bson
tbson diff old.shape people.shape         is what was written at the old shape read at the new one?

Files are those that mongodump writes without --archive: documents one after another. A file whose name ends in .gz is compressed by gzip. `tbson COMMAND --help`
says the rest; `tbson migrate --help` has the notation of shapes.
"""

EXIT_STATUS = """\b
Exit status:
0    all was done
1    some documents do not fit, shapes differ, or something that was looked for is missing
2    nothing was done: a line on standard error says why
130  it was interrupted, and left no file half-written
"""

SHAPES = """\b
Shapes: a field keeps its name, and has a shape behind a colon.
bool  string  double  oid  datetime       values of these kinds, and no others
i8 i16 i32 u8 u16                         integers in this range, written as Int32
i64 u32 u64                               integers in this range, written as Int64
binary bytebuf uuid decimal timestamp regex codews dbpointer
bson                                      a value of any kind, as it is
?s                                        null, or s; as a field it may be missing, and is written as null then
[s]                                       an array whose items are s
[string:s]                                a document with any keys, whose values are s
{name:string,age:?i64}                    a document with these fields; others are dropped
{!name:string,age:?i64}                   the same; a document that has others is refused
<new,paid>                                a string, one of these
(double,double)                           an array of these parts
A name with other characters than letters, digits and _ is quoted: {"first-name":string}.
In a file, a shape may have line breaks and blanks, and comments from a # to the end of the line.
"""
