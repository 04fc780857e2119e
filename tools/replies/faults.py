"""The faults of scripts and of requests in words."""

SCRIPT = {
    "not-json": "the line is not JSON, not UTF-8, nested too deep, or has a number that is too large",
    "no-schema": "the first line that is not blank has to be the schema",
    "unknown-line": "the line is none that a script may have: a member is missing, or there is one more",
    "bad-schema": "the schema names too many shards or fields, or a name or a type that is not taken",
    "bad-shard": "there is no such shard",
    "bad-document": "the document is not as the schema has it",
    "field-total": "with this line, the values of a field of integers add up to too much",
    "too-many-documents": "with this line, there are too many documents, or too many values in them",
    "too-many-sessions": "there are more than 16 sessions",
    "long-line": "the line has more than 1,048,576 bytes",
    "too-long": "the script has more than 67,108,864 bytes",
    "too-many-commits": "with this line, a shard has more than 4,096 commits",
    "too-many-syncs": "there are more than 4,096 sync lines",
}
DETAILS = {
    "wrong-type": "a value is not of its field's type, or the document is no object",
    "unknown-field": "a name is no field's",
    "too-many-values": "several values stand in a field that holds one",
    "no-id": "a document has no id",
    "long-term": "a text has more than 32,766 bytes",
    "deep-children": "a child has children",
}
REQUEST = {
    "not-an-object": "the request, or what stands under facet, is no object",
    "unknown-key": "a member is none of those that may stand there",
    "query-syntax": "a query text or the tags of a filter are not of their language",
    "mixed-operators": "AND and OR stand in one group of a query text; parentheses part them",
    "unknown-field": "there is no such field",
    "bad-value": "a query text asks a field of integers for what is no integer, or one of dates for what is no date",
    "bad-command": "a facet is neither a text nor an object",
    "unknown-type": "the type of the facet is none of terms, range, query and func",
    "missing-parameter": "the type, or a parameter that has to be there, is not",
    "bad-parameter": "a parameter is not of its form, or its number is outside its limits",
    "unknown-sort": "the sort names neither count nor index nor a statistic directly under the facet; a unique sorts nothing",
    "bad-statistic": "the text is no statistic",
    "wrong-field-type": "a field stands where one of another type has to: of integers, of dates, or of other texts",
    "reserved-name": "a facet or a statistic is named count or val",
    "nested-exclude": "a facet excludes tags inside one with blockChildren or blockParent",
    "too-large": "there are too many facets, too many around one another, or too many buckets of a range",
}


def of_script(fault):
    words = SCRIPT.get(fault.name, "a fault without words here")
    if fault.detail is not None:
        words += f": {DETAILS.get(fault.detail, fault.detail)}"
    return words


def of_request(fault):
    return REQUEST.get(fault.name, "a fault without words here")
