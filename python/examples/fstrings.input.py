"""Reports on a shop."""


def report(name, items):
    head = "%s has %s items" % (name, len(items))  # the first line
    lines = ["  %r: %s%%" % (key,  # as it is in the file
                             share)
             for key, share in items]
    total = "total: %d" % (len(items),)  # {:d} takes no float
    note = "%s" % name  # name may be a tuple
    paths = "%s in %s" % ("\n".join(lines), name)  # no backslash in an f-string before 3.12
    return "%s\n%s" % (head, total), note, paths
