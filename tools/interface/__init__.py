"""What is written from interface/numbers.toml and from the declarations of include/trirast.h."""
