"""Files and words that tools/script-of does not take: a name, the files, the words, and what it says of them."""

DEEP = "[" * 128
NO_DATE = "is no date of the form YYYY-MM-DDThh:mm:ssZ, as at is set to hold; --type at=string (or strings) keeps its text"


def bad(name, content, told, words="", file="a.jsonl", status=65):
    """A case of one file, whose name stands before what is told."""
    return name, {file: content}, f"{words} {file}", f"{file}, {told}" if told.startswith("line") else told, status


def table(name, content, told, words=""):
    return bad(name, content, told, words, "a.csv")


def array(name, content, told, words=""):
    return bad(name, content, told, words, "a.json")


CASES = [
    table("no header", "", "line 1, column 1: there is no header: the first line has the names of the fields"),
    table("no id", "brand,price\nx,1\n", "line 1, column 1: no column is named id; --id COLUMN names the one that holds it"),
    table("a name twice", "id,a,a\n", "line 1, column 6: the name 'a' stands twice in the header"),
    table("a name with a space", "id,unit price\n1,2\n",
          "line 1, column 4: no field can be named 'unit price': a name has 1 to 64 letters of ASCII, digits and _, and no digit in front; "
          "--rename 'unit price'=NEW gives it another"),
    table("a name with a hyphen", "id,a-b\n",
          "line 1, column 4: no field can be named 'a-b': a name has 1 to 64 letters of ASCII, digits and _, and no digit in front; "
          "--rename a-b=NEW gives it another"),
    table("an empty name", "id,,b\n",
          "line 1, column 4: no field can be named '': a name has 1 to 64 letters of ASCII, digits and _, and no digit in front; "
          "--rename ''=NEW gives it another"),
    table("a name of 65 letters", "id," + "a" * 65 + "\n",
          f"line 1, column 4: no field can be named '{'a' * 65}': a name has 1 to 64 letters of ASCII, digits and _, and no digit in front; "
          f"--rename {'a' * 65}=NEW gives it another"),
    table("two names for one field", "id,a,b\n", "line 1, column 6: 'b' and 'a' would both be the field a", "--rename b=a"),
    table("an id beside the one that is named", "id,sku\n1,2\n", "line 1, column 4: 'sku' and 'id' would both be the field id", "--id sku"),
    table("too many cells", "id,a\n1,2\n3,4,5\n", "line 3, column 5: cells in this row: 3; in the header: 2"),
    table("too few cells", "id,a\n1,2\n3\n", "line 3, column 1: cells in this row: 1; in the header: 2"),
    table("a quote that is not closed", 'id,a\n1,"x\n2,y\n', "line 2, column 3: this quote is not closed"),
    table("text behind a closing quote", 'id,a\n1,"x"y\n', "line 2, column 6: a comma or the end of the line is wanted behind the closing quote"),
    table("a quote in a cell without quotes", 'id,a\n1,5" disk\n',
          "line 2, column 4: a quote in a cell that does not begin with one; put the cell in quotes and write the quote twice"),
    table("a fault behind a cell of two lines", 'id,a\n1,"x\ny"\n2,3,4\n', "line 4, column 5: cells in this row: 3; in the header: 2"),
    table("bytes that are not UTF-8", b"id,a\n1,\xc3\xa9x\xe9\n", "line 2, column 5: the bytes here are not UTF-8"),
    table("an empty id", "id,a\n1,2\n,3\n", "line 3, column 1: the document has no id"),
    table("an id twice", "id\nx\ny\nx\n", "line 4, column 1: the id 'x' stands already in a.csv, line 2"),
    table("an id of two values", "id\na;b\n", "line 2, column 1: a document has one id", "--split 'id=;'"),
    table("a column of numbers with a fraction", "id,price\n1,2\n2,2.50\n",
          "line 3, column 3: 2.50 is no whole number, and no field holds another; --type price=string (or strings) keeps its text"),
    table("a column of exponents", "id,price\n1,1e3\n",
          "line 2, column 3: 1e3 is no whole number, and no field holds another; --type price=string (or strings) keeps its text"),
    table("a text in a field of integers", "id,n\n1,x\n", "line 2, column 3: 'x' is no integer of 64 bits, as n is set to hold", "--type n=plong"),
    table("an integer of more than 64 bits", "id,n\n1,9223372036854775808\n",
          "line 2, column 3: '9223372036854775808' is no integer of 64 bits, as n is set to hold", "--type n=plongs"),
    table("several values for one", "id,n\n1,2;3\n", "line 2, column 3: several values, and n is set to hold one", "--split 'n=;' --type n=plong"),
    table("a day that is none of the calendar", "id,at\n1,2024-02-29T00:00:00Z\n2,2023-02-29T00:00:00Z\n",
          f"line 3, column 3: '2023-02-29T00:00:00Z' {NO_DATE}", "--type at=pdate"),
    table("ten digits behind the point of a date", "id,at\n1,2024-02-29T00:00:00.1234567890Z\n",
          f"line 2, column 3: '2024-02-29T00:00:00.1234567890Z' {NO_DATE}", "--type at=pdates"),
    table("a text in a field of dates", "id,at\n1," + "x" * 41 + "\n", f"line 2, column 3: '{'x' * 40}..' {NO_DATE}", "--type at=pdate"),
    table("an integer in a field of dates", "id,at\n1,1704067200\n", f"line 2, column 3: '1704067200' {NO_DATE}", "--type at=pdate"),
    table("a fraction in a field of dates", "id,at\n1,2024.5\n", f"line 2, column 3: '2024.5' {NO_DATE}", "--type at=pdate"),
    table("several dates for one", "id,at\n1,2024-02-29T00:00:00Z;2024-02-29T00:00:00.000Z\n",
          "line 2, column 3: several values, and at is set to hold one", "--split 'at=;' --type at=pdate"),
    table("a text of 32,767 bytes", "id,a\n1," + "é" * 16383 + "x\n",
          "line 2, column 3: a text of 32,767 bytes, and one has at most 32,766 (field a)"),
    table("a field to be renamed that is none", "id\n1\n", "no file has a field 'x', which was to be renamed", "--rename x=y"),
    table("a column to be split that is none", "id\n1\n", "no file has a column 'x', which was to be split", "--split 'x=;'"),
    table("integers that add up to too much", "id,n\n1,9223372036854775807\n2,-1\n",
          "line 3, column 1: with this document the values of n, without their signs, add up to more than 9,223,372,036,854,775,807; "
          "--type n=string (or strings) holds them as texts"),
    table("257 fields", "id," + ",".join(f"f{i}" for i in range(256)) + "\n",
          f"line 1, column {len('id,' + ','.join(f'f{i}' for i in range(255)) + ',') + 1}: more than 256 fields, id among them"),
    bad("257 fields in lines", "".join('{"id":"%d","f%d":1}\n' % (i, i) for i in range(256)),
        "line 256, column 13: more than 256 fields, id among them"),
    bad("no object", '{"id":"1"}\n[1]\n', "line 2, column 1: a document is an object, which begins with {"),
    bad("JSON that ends", '{"id":"1"}\n{"id":"2"\n', "line 2, column 10: the file ends within a JSON value"),
    bad("a missing comma", '{"id":"1" "a":2}\n', "line 1, column 11: a comma or } is wanted in place of '\"'"),
    bad("a missing colon", '{"id" "1"}\n', "line 1, column 7: a colon is wanted in place of '\"'"),
    bad("a name without quotes", '{id:"1"}\n', "line 1, column 2: a name in quotes is wanted in place of 'i'"),
    bad("a comma too many", '{"id":"1",}\n', "line 1, column 11: a name in quotes is wanted in place of '}'"),
    bad("a text that does not end", '{"id":"1}\n', "line 1, column 7: the text has no quote at its end"),
    bad("a control character", '{"id":"a\tb"}\n', "line 1, column 9: a control character in a text, which JSON wants escaped"),
    bad("a bad escape", '{"id":"a\\x"}\n', "line 1, column 9: a bad escape in a text"),
    bad("half of a pair", '{"id":"\\ud800"}\n', "line 1, column 7: the text has one half of a surrogate pair without the other"),
    bad("no JSON number", '{"id":"1","n":01}\n', "line 1, column 15: no JSON value begins with '01'"),
    bad("no JSON word", '{"id":"1","n":NaN}\n', "line 1, column 15: no JSON value begins with 'NaN'"),
    bad("text behind a document", '{"id":"1"} {"id":"2"}\n', "line 1, column 12: more text behind the document of this line"),
    bad("nested too deep", '{"id":' + DEEP, "line 1, column 133: nested deeper than the 127 that a line of a script may be"),
    bad("bytes that are not UTF-8 in a line", b'{"id":"\xff"}\n', "line 1, column 8: the bytes here are not UTF-8"),
    bad("a float", '{"id":"1","price":[1, 1.5]}\n',
        "line 1, column 23: 1.5 is no whole number, and no field holds another; --type price=string (or strings) keeps its text"),
    bad("a truth value", '{"id":"1","new":true}\n',
        "line 1, column 17: true is neither a text nor a whole number; --type new=string (or strings) keeps its text"),
    bad("an id that is a float", '{"id":1.5}\n', "line 1, column 7: 1.5 is no whole number, and no field holds another; --type id=string keeps its text"),
    bad("an object in a document", '{"id":"1","size":{"set":4}}\n',
        "line 1, column 18: an object, and no field holds one; only _childDocuments_ has documents in it (field size)"),
    bad("an array in an array", '{"id":"1","size":[[4]]}\n', "line 1, column 19: an array in an array (field size)"),
    bad("no id in a document", '{"id":"1"}\n {"brand":"x"}\n', "line 2, column 2: the document has no id"),
    bad("an id that is null", '{"id":null}\n', "line 1, column 2: the document has no id"),
    bad("an id that is an empty text", '{"id":""}\n', "line 1, column 2: the id is empty"),
    bad("a child with the id of its parent", '{"id":"1","_childDocuments_":[{"id":"1"}]}\n',
        "line 1, column 32: the id '1' stands already in a.jsonl, line 1"),
    bad("children that are no array", '{"id":"1","_childDocuments_":{}}\n', "line 1, column 30: _childDocuments_ is an array of documents"),
    bad("a child of a child", '{"id":"1","_childDocuments_":[{"id":"2","_childDocuments_":[{"id":"3"}]}]}\n',
        "line 1, column 60: a child has children, and a script has no grandchildren"),
    bad("several values in a field that is set", '{"id":"1","a":["x","x"]}\n',
        "line 1, column 11: several values, and a is set to hold one", "--type a=string"),
    bad("a number in a field of dates", '{"id":"1","at":["2024-02-29T00:00:00Z",1704067200]}\n',
        f"line 1, column 40: '1704067200' {NO_DATE}", "--type at=pdates"),
    bad("a truth value in a field of dates", '{"id":"1","at":true}\n', f"line 1, column 16: 'true' {NO_DATE}", "--type at=pdate"),
    bad("an empty text in a field of dates", '{"id":"1","at":""}\n', f"line 1, column 16: '' {NO_DATE}", "--type at=pdate"),
    array("no array", '{"id":"1"}', "line 1, column 1: an array of documents is wanted, which begins with ["),
    array("an empty file", "", "line 1, column 1: an array of documents is wanted, which begins with ["),
    array("an array that ends", '[\n {"id":"1"},\n {"id":"2"}', "line 3, column 12: a comma or ] is wanted where the file ends"),
    array("a document that ends", '[\n {"id":"1"},\n {"id":', "line 3, column 8: the file ends within a JSON value"),
    array("no comma", '[\n {"id":"1"}\n {"id":"2"}]', "line 3, column 2: a comma or ] is wanted in place of '{'"),
    array("text behind the array", '[]\n\n x', "line 3, column 2: more text behind the array"),
    array("a fault in a later line", '[{"id":"1"},\n {"id":"2",\n  "n": 1.5}]',
          "line 3, column 8: 1.5 is no whole number, and no field holds another; --type n=string (or strings) keeps its text"),
    ("a fault in a request", {"a.csv": "id\n1\n", "r.json": '{"query":"*:*"}\n{"facet":{]}\n'}, "--requests r.json a.csv",
     "r.json, line 2, column 11: a name in quotes is wanted in place of ']'", 65),
    ("a request that is nested too deep", {"a.csv": "id\n1\n", "r.json": "7 " + "[" * 126}, "--requests r.json a.csv",
     "r.json, line 1, column 128: nested deeper than the 127 that a line of a script may be", 65),
    ("an id of another file", {"a.csv": "id\n1\n", "b.csv": "id\n2\n1\n"}, "a.csv b.csv",
     "b.csv, line 3, column 1: the id '1' stands already in a.csv, line 2", 65),
    ("an id twice in an update", {"a.csv": "id\n1\n", "b.csv": "id\n1\n1\n"}, "--update b.csv a.csv",
     "b.csv, line 3, column 1: the id '1' stands already in b.csv, line 2", 65),
    ("a document of an update with the id of a child", {"a.jsonl": '{"id":"1","_childDocuments_":[{"id":"c"}]}\n', "b.csv": "id\nc\n"},
     "--update b.csv a.jsonl", "b.csv, line 2, column 1: the id 'c' stands already in a.jsonl, line 1", 65),
    ("a child of an update with an id that stood", {"a.csv": "id\n1\n", "b.jsonl": '{"id":"2","_childDocuments_":[{"id":"1"}]}\n'},
     "--update b.jsonl a.csv", "b.jsonl, line 1, column 32: the id '1' stands already in a.csv, line 2", 65),
    ("a name that tells no format", {"a.txt": ""}, "a.txt", "a.txt: the name does not tell the format; --format csv, lines or json does", 65),
    ("no such file", {}, "none.csv", "none.csv: No such file or directory", 66),
    ("a folder", {}, "--format csv .", ".: Is a directory", 66),
    ("no such file of requests", {"a.csv": "id\n1\n"}, "--requests none.json a.csv", "none.json: No such file or directory", 66),
]

TYPES = "a type is one of string, strings, plong, plongs, pdate, pdates, and that of id is string"
# Words that argparse refuses, with the last part of what it says.
WORDS = [
    ("", "the following arguments are required: FILE"),
    ("--shards 65 a.csv", "argument --shards: '65' is no whole number from 1 to 64"),
    ("--shards ² a.csv", "argument --shards: '²' is no whole number from 1 to 64"),
    ("--by color a.csv", "argument --by: invalid choice: 'color' (choose from 'hash', 'turn')"),
    ("--type price a.csv", "argument --type: 'price' is not of the form NAME=VALUE"),
    ("--type price=float a.csv", f"argument --type: 'price=float': {TYPES}"),
    ("--type id=plong a.csv", f"argument --type: 'id=plong': {TYPES}"),
    ("--type id=pdate a.csv", f"argument --type: 'id=pdate': {TYPES}"),
    ("--type at=date a.csv", f"argument --type: 'at=date': {TYPES}"),
    ("--commit-every 0 a.csv", "argument --commit-every: '0' is no whole number from 1 to 1,048,576"),
    ("--session '' a.csv", "argument --session: a session's name is a text of 1 to 64 bytes"),
    (f"--session {'é' * 33} a.csv", "argument --session: a session's name is a text of 1 to 64 bytes"),
]
