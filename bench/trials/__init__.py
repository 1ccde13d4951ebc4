"""Random designs, their simulation, and what a database must say of them."""
