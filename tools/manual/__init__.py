"""Pages that tools/man-page, tools/make-api and tools/make-definitions print."""
