"""What was expected and what came, one line a case."""


def short(value):
    if isinstance(value, bytes):
        value = value.hex()
    if isinstance(value, (list, tuple)):
        value = (
            "["
            + ", ".join(short(one) for one in value[:4])
            + (f", .. {len(value)} in all]" if len(value) > 4 else "]")
        )
    value = str(value).replace("\n", "\\n")
    return value if len(value) <= 150 else f"{value[:100]}..{value[-40:]}"


class Checks:
    def __init__(self):
        self.passed = 0
        self.failed = 0
        self.skipped = 0

    def skip(self, what, why):
        self.skipped += 1
        print(f"--  {what}: not tried, {why}", flush=True)

    def equal(self, what, came, wanted):
        self.tell(what, came == wanted, short(wanted), came)

    def holds(self, what, good, wanted, came):
        """A case whose expectation is said in words."""
        self.tell(what, good, wanted, came)

    def tell(self, what, good, wanted, came):
        if good:
            self.passed += 1
            print(f"ok  {what}: {wanted}", flush=True)
        else:
            self.failed += 1
            print(f"NOT {what}: wanted {wanted}, came {short(came)}", flush=True)
