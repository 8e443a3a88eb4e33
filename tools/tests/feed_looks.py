"""Makes the page of a host that follows, whose master is 3 ms ahead of this machine's clock, and looks at it each half second: `feed_looks.py PAGE SECONDS`."""
import sys
import time

sys.dont_write_bytecode = True
import made_page  # noqa: E402


def main(path, seconds):
    page = made_page.following(time.time_ns() // 1000 + 3000)
    made_page.write(path, page)
    for number in range(2 * int(seconds)):
        time.sleep(0.5)
        made_page.change(path, look=page.look._replace(looked=page.look.looked + 400_000 * number))


main(*sys.argv[1:])
