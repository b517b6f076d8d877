"""Programs of those who change cpgc: what tries, measures and installs. None of it is installed."""
