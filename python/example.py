"""example.py ARCHIVE URI DATE: prints what an archive has, and the page that was captured of a URI as of a date."""
import sys

import zogwedu

path, uri, date = sys.argv[1:]
try:
    with zogwedu.Archive.open(path) as archive:
        print(len(archive), "records")
        sys.stdout.flush()
        sys.stdout.buffer.write(bytes(archive.replay(uri, date)))
except zogwedu.WarcError as error:
    sys.exit(str(error))
