"""The worked scripts of crates/moka_replay/scripts. A file holds scripts, parted by `----`. Behind ` | ` stands what a call
prints, and in lines of their own what follows the replies; `faulty` stands behind a line that no script may have. A line
with `# ` in front of a script is a comment.
"""


def of_file(text):
    """Scripts with what each prints, or its faulty line."""
    for block in text.split("\n----\n"):
        lines = block.rstrip("\n").split("\n")
        while lines[0].startswith("# "):
            lines.pop(0)
        rows = [line.partition(" | ") for line in lines]
        faulty = [number for number, (_, _, said) in enumerate(rows, 1) if said == "faulty"]
        script = "".join(f"{line.rstrip()}\n" for line, bar, _ in rows if line.strip() or not bar)
        yield script, faulty[0] if faulty else [said for _, bar, said in rows if bar]
