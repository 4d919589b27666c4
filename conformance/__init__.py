"""The comparison of a driver with the program, sample by sample, by OpenGL and by Direct3D 11."""
