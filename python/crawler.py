"""crawler.py OUT URI..: fetches pages and writes them as the records of an archive."""
import datetime
import sys
import urllib.request

import zogwedu

with open(sys.argv[1], "wb") as out:
    for uri in sys.argv[2:]:
        with urllib.request.urlopen(uri) as page:
            now = datetime.datetime.now(datetime.timezone.utc)
            zogwedu.make(out, "resource", uri, now, page.headers.get_content_type(), page.read())
