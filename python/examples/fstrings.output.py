"""Reports on a shop."""


def report(name, items):
    head = f"{name} has {len(items)} items"  # the first line
    # as it is in the file
    lines = [f"  {key!r}: {share}%"
             for key, share in items]
    total = "total: %d" % (len(items),)  # {:d} takes no float
    note = "%s" % name  # name may be a tuple
    paths = "%s in %s" % ("\n".join(lines), name)  # no backslash in an f-string before 3.12
    return f"{head}\n{total}", note, paths
