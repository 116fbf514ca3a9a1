"""What holds for all tests: where the caller ignores Ctrl-C, as shells do for work in the background, what is started here would
ignore it too."""
import signal

signal.signal(signal.SIGINT, signal.default_int_handler)
