"""A checker, a solver and a painter of pages that share nothing with mechdes but its formats."""
