"""Pages with pictures for answers, and the gallery of them."""
