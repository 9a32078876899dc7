"""What was looked at, each with what is wrong with it."""


def status_of(results):
    """Prints what is wrong with each of these, and as the last line how many are right; gives the
    status."""
    passed = failed = 0
    for name, wrong in results:
        passed, failed = passed + (not wrong), failed + bool(wrong)
        for it in wrong:
            print(f"NOT {name}: {it}")
    print(f"{passed} passed, {failed} failed")
    return 1 if failed or not passed else 0
