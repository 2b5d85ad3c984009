"""What docs/DATES.md shows is what the library says.

    dates.py PAGE SOURCE DATES

PAGE is the page, SOURCE the routine's source with its list of twelve, DATES a line for each MJD from 15,078 to 65,535 with
the library's answer. It compares the page's twelve numbers with the list; every date that the page names, and its steps by
its own numbers on the first and the last day of each month, with the library; and it does the sums of the date that is done
step by step.
"""
import re
import sys

page, source, dates = (open(name, encoding='utf-8').read() for name in sys.argv[1:])
faults = []


def hold(right, what):
    if not right:
        faults.append(what)


def number(text):
    return int(re.sub('[,_]', '', text))


def cells(line):
    return [cell.strip() for cell in line.strip().strip('|').split('|')]


def rows(heading):
    """The rows of the first table that follows a text."""
    lines = page[page.index(heading):].split('\n')
    start = next(i for i, line in enumerate(lines) if line.startswith('|---')) + 1
    end = next(i for i, line in enumerate(lines) if i >= start and not line.startswith('|'))
    return [cells(line) for line in [lines[start - 2]] + lines[start:end]]


told = {}
for line in dates.split('\n'):
    words = line.split()
    if words:
        told[int(words[0])] = tuple(map(int, words[1:])) if words[1] != 'refused' else words[1:]

# the twelve
names, lengths = rows('**The days of the months:**')
lengths = [number(cell) for cell in lengths]
listed = re.search(r'MONTHS: \[u\d+; 12\] = \[([^\]]*)\]', source)
hold(listed and [number(n) for n in listed.group(1).split(',')] == lengths, 'the twelve numbers are not those of the list')
hold(len(names) == 12, 'there are not twelve months')
begin = number(re.search(r'day ([\d,]+) is 1 January 1900', page).group(1))
hold('mjd - %d_%03d' % divmod(begin, 1000) in source, 'the routine does not begin on day %d' % begin)

# the two bytes
first, second, high, low, mjd = re.search(r'(\w\w) (\w\w) is (\d+) × 256 \+ (\d+) = ([\d,]+), and', page).groups()
hold([int(first, 16), int(second, 16)] == [int(high), int(low)] and int(high) * 256 + int(low) == number(mjd), 'the two bytes')

# every date that is named
named = re.findall(r'([\d,]+)(?:, which)? is (\d+) ([A-Z][a-z]+) (\d{4})', page)
hold(len(named) >= 6, 'the page names only %d dates' % len(named))
for day, d, m, y in named:
    if number(day) != begin:
        hold(told.get(number(day)) == (int(y), names.index(m) + 1, int(d)), '%s is not %s %s %s' % (day, d, m, y))
hold(told[min(told)] == ['refused', '65'] and min(number(n[0]) for n in named if number(n[0]) != begin) == min(told) + 1,
     'the first day is another')
hold(max(number(n[0]) for n in named) == max(told), 'the last day is another')

# tens of years
tens = {}
for row in rows('The years up to these come to:')[1:]:
    tens.update((number(row[i]), number(row[i + 1])) for i in (0, 2, 4) if row[i])
for year, days in tens.items():
    hold(told[begin + days] == (year, 1, 1), '%d days are not the years before %d' % (days, year))


# the steps, by the page's numbers; months are counted from 0
def leap(year):
    return year % 4 == 0 and (year % 100 != 0 or year % 400 == 0)


def year_days(year):
    return 366 if leap(year) else 365


def month_days(year, month):
    return 29 if month == 1 and leap(year) else lengths[month]


def steps(mjd):
    left, year, month = mjd - begin, 1900, 0
    while left >= year_days(year):
        left -= year_days(year)
        year += 1
    while left >= month_days(year, month):
        left -= month_days(year, month)
        month += 1
    return year, month + 1, left + 1


firsts = [mjd for mjd in told if told[mjd][2:] == (1,)]
days = sorted(set(firsts + [mjd - 1 for mjd in firsts[1:]] + [max(told)]))
other = [mjd for mjd in days if told[mjd] != steps(mjd)]
hold(len(days) == 3316, 'the firsts and lasts of the months are %d days' % len(days))
hold(not other, 'the steps give another date on %d days, the first is %s' % (len(other), other[:1]))

# the date that is done step by step
heading = re.search(r'## One date: MJD ([\d,]+)', page)
mjd = number(heading.group(1))
left = year = month = None
for what, off, rest in rows(heading.group(0))[1:]:
    if what == 'the MJD':
        left = mjd
    elif off:
        left -= number(off)
        if what in names:
            hold(names.index(what) == month, '%s is not the next month' % what)
            hold(number(off) == month_days(year, month), 'the days of %s' % what)
            month += 1
        elif what.startswith('up to'):
            hold(number(off) == begin, 'the beginning')
        elif what.startswith('before'):
            year = number(what.split()[1])
            hold(number(off) == tens[year], 'the days before %d' % year)
        else:
            hold(number(what[:4]) == year and number(off) == year_days(year), 'the days of %s' % what)
            hold(what[4:] == (', a leap year' if leap(year) else ''), what)
            year += 1
    elif found := re.match(r'(\d+) has (\d+): \*\*the year is (\d+)', what):
        hold([number(n) for n in found.groups()] == [year, year_days(year), year] and left < year_days(year), what)
        month = 0
    elif found := re.match(r'(\w+) has (\d+): \*\*the month is (\w+)', what):
        length = month_days(year, month)
        hold(found.groups() == (names[month], str(length), names[month]) and left < length, what)
    elif found := re.match(r'(\d+) and one more: \*\*the day is (\d+)', what):
        hold([number(n) for n in found.groups()] == [left, left + 1], what)
        hold(told[mjd] == (year, month + 1, left + 1), 'the date that is done is not the library\'s')
        year = None
    hold(not rest or number(rest) == left, '%s: %s left' % (what, rest))
hold(year is None, 'the date that is done has no end')

# the one to try
heading = re.search(r'## One to try: MJD ([\d,]+)', page)
trial = page[heading.end():]
mjd = number(heading.group(1))
after, from_year, of_year = re.search(r'On the way ([\d,]+) are left of it, then (\d+) from the year (\d+) on', trial).groups()
hold(number(after) == mjd - begin and number(from_year) == mjd - begin - tens[int(of_year)], 'what is left on the way')
hold(heading.group(1) in [n[0] for n in re.findall(r'MJD ([\d,]+) is (\d+)', trial)], 'the one to try has no answer')

for fault in faults:
    print('dates: docs/DATES.md: %s' % fault)
if faults:
    sys.exit(1)
print('dates: the %d dates and %d sums of years of docs/DATES.md, and its steps on %d days, are the library\'s'
      % (len(named), len(tens), len(days)))
