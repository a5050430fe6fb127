// What tests is a module of its own, so that who gets the package does not get it.
module tests

go 1.18
