"""Keeps snapshots of settings while they are edited: a snapshot takes no copy of what stays."""

from ecow import Value

settings = Value({"window": {"title": "untitled", "size": [800, 600]}, "recent": []})
snapshots = [settings.copy()]

settings["window", "size", 0] = 1024
settings.append("notes.txt", "recent")
snapshots.append(settings.copy())

settings.update({"title": "notes.txt", "zoom": 1.5}, "window")
snapshots.append(settings.copy())

for snapshot in snapshots:
    print(snapshot.to_python())

# Back to an earlier one, which itself stays.
settings = snapshots[1].copy()
settings["window", "title"] = "again"
print(settings["window", "title"], snapshots[1]["window", "title"])
