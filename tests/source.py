"""What of a source file is code: lines without blanks, comments, imports and contracts."""
import re

LEFT_OUT = re.compile(r'^\s*(//|$|ghost use|use )')
CONTRACT = re.compile(r'^\s*(requires|ensures)\b')


def code(text):
    found, open_braces, inside = [], 0, False
    for line in text.split('\n'):
        if not inside and CONTRACT.match(line):
            inside, open_braces = True, 0
        if inside:
            open_braces += line.count('{') - line.count('}')
            inside = open_braces > 0
        elif not LEFT_OUT.match(line):
            found.append(line)
    return found
