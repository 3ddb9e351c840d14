"""A slow JPEG XS codec with RTP ends, written straight from docs/FORMAT.md: one module for each of its subjects."""
