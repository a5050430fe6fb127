// What measures is a module of its own, so that who gets the package does not get it.
module calls

go 1.18
