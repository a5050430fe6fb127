package s2union // made by tools/calls

// The room that what a call makes is first given, by the lengths of its lists.
func roomOfFromTokens(n int) int { return n/2 + 1 }

func roomOfTokens(n int) int { return 17 * n }

func roomOfUnion(nx, ny int) int { return nx + ny }

func roomOfIntersection(nx, ny int) int { return 2 * smaller(nx, ny) }

func roomOfDifference(nx, ny int) int { return nx + smaller(nx, ny) + 90 }

func roomOfSymmetricDifference(nx, ny int) int { return nx + ny + 90 }

func roomOfComplement(n int) int { return 2*n + 90 }

func roomOfRange() int { return 184 }

func roomOfAncestors(n int) int { return 2*n + 30 }

func roomOfOuter() int { return 64 }

func roomOfInner() int { return 64 }

func roomOfOuterOf(n int) int { return n }

func roomOfInnerOf(n int) int { return n }

func roomOfOuterIn() int { return 64 }

func roomOfInnerIn() int { return 64 }

func roomOfEncode(n int) int { return 8*n + 9 }

func roomOfDecode(n int) int { return n / 8 }

func roomOfFileAncestors(n int) int { return n/4 + 30 }

func roomOfMapGeojson() int { return 4096 }

func roomOfMapWkb() int { return 4096 }

func roomOfMapGeojsonUpTo() int { return 1024 }

func roomOfMapWkbUpTo() int { return 1024 }

func roomOfGeodesicGeojson() int { return 4096 }

func roomOfGeodesicWkb() int { return 4096 }

func roomOfPolygonOuter() int { return 4096 }

func roomOfPolygonInner() int { return 4096 }

func roomOfPolygonOuterUpTo() int { return 1024 }

func roomOfPolygonInnerUpTo() int { return 1024 }
