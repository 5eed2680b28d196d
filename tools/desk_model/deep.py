"""Room for parts within parts: the deepest records are read by functions that call each other some 16,000 levels down."""
import sys, threading


def with_deep_stack(main):
    """runs main and gives its failure on"""
    failures = []

    def guarded():
        try:
            main()
        except BaseException as failure:
            failures.append(failure)

    sys.setrecursionlimit(10 ** 6)
    threading.stack_size(1 << 29)
    thread = threading.Thread(target=guarded)
    thread.start()
    thread.join()
    if failures:
        raise failures[0]
