"""`python3 -m gpscover` is `gpslog`."""

from gpscover.cli import main

main()
