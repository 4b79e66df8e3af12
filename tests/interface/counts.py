"""The last line of a stage: 'N passed, M failed'."""
import pathlib
import sys


def finish(verdicts):
    """Of what is held, each a sentence that says what is wrong and whether it is right: prints what is wrong and the count, and ends
    with status 0 exactly if nothing is wrong."""
    held = list(verdicts)
    wrong = [sentence for sentence, right in held if not right]
    for sentence in wrong:
        print(f"{pathlib.Path(sys.argv[0]).name}: {sentence}")
    print(f"{len(held) - len(wrong)} passed, {len(wrong)} failed")
    sys.exit(len(wrong) > 0)
