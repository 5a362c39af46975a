// Stand-in: the test module was not supplied.
