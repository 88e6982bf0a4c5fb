"""Writes the scripts that `measure` runs: a store is filled, read, and written in large and in small transactions."""
import random
import sys

folder = sys.argv[1]
draw = random.Random(1)
TABLES, ROWS, SIZE = 4, 100, 100


def name(table):
    return "t%d" % table


def value():
    return "".join(draw.choice("abcdefghijklmnopqrstuvwxyz") for _ in range(SIZE))


def put():
    return "put %s %d %s\n" % (name(draw.randrange(TABLES)), draw.randrange(ROWS), value())


def write(file, lines):
    with open("%s/%s" % (folder, file), "w") as out:
        out.writelines(lines)


fill = ["begin\n"] + ["create %s\n" % name(table) for table in range(TABLES)] + ["commit\n"]
for table in range(TABLES):
    for first in range(0, ROWS, 25):
        fill.append("begin\n")
        fill += ["put %s %d %s\n" % (name(table), key, value()) for key in range(first, first + 25)]
        fill.append("commit\n")
write("fill", fill)
write("gets", ["get %s %d\n" % (name(draw.randrange(TABLES)), draw.randrange(ROWS)) for _ in range(100000)])
puts = []
for _ in range(1000):
    puts += ["begin\n"] + [put() for _ in range(31)] + ["commit\n"] + ["checkpoint\n"]
write("puts", puts)
single = []
for count in range(5000):
    single += ["begin\n", put(), "commit\n"]
    if count % 31 == 30:
        single.append("checkpoint\n")
write("single", single)
