"""A plain sorted file, read whole for each get and written whole for each put: what `measure` stands beside."""
import bisect
import sys
import time


def commands(file, word):
    with open(file) as lines:
        return [line.rstrip("\n").split(" ", 3) for line in lines if line.startswith(word)]


def read():
    with open("sorted") as rows:
        return rows.read().split("\n")


def write(rows):
    with open("sorted", "w") as out:
        out.write("\n".join(rows))


def key_of(command):
    return "%s %20s" % (command[1], command[2])


def find(rows, key):
    at = bisect.bisect_left(rows, key)
    return at, at < len(rows) and rows[at].startswith(key + " ")


def put(command):
    rows = read()
    at, found = find(rows, key_of(command))
    row = "%s %s" % (key_of(command), command[3])
    if found:
        rows[at] = row
    else:
        rows.insert(at, row)
    write(rows)


def get(command):
    rows = read()
    at, found = find(rows, key_of(command))
    return rows[at] if found else None


def a_second(call, some):
    begun = time.perf_counter()
    for command in some:
        call(command)
    return round(len(some) / (time.perf_counter() - begun))


fill, gets, puts = sys.argv[1:]
write(["%s %s" % (key_of(command), command[3]) for command in sorted(commands(fill, "put"), key=key_of)])
print("| gets, a sorted file read whole each time | %d |" % a_second(get, commands(gets, "get")[:5000]))
print("| puts, a sorted file written whole each time | %d |" % a_second(put, commands(puts, "put")[:2000]))
