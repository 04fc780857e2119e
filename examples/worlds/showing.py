"""What differs, laid out to be read."""
import json


def laid_out(text):
    try:
        return json.dumps(json.loads(text), ensure_ascii=False, indent=2, sort_keys=True).split("\n")
    except ValueError:
        return text.split("\n")


def shown(difference):
    """The counted line and the written one, both laid out, the first line that differs marked."""
    counted, written = laid_out(difference.counted), laid_out(difference.written)
    if counted == written:
        counted, written = [difference.counted], [difference.written]
    same = 0
    while same < min(len(counted), len(written)) and counted[same] == written[same]:
        same += 1
    for name, lines in (("counted", counted), ("written", written)):
        yield name
        for number, line in enumerate(lines):
            yield ("  > " if number == same else "    ") + line
