// Stand-in for the missing errors.rs: the text declares the module and names nothing of it.
