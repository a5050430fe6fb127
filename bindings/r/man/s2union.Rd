\name{s2union}
\alias{s2union} \alias{s2u_leaf} \alias{s2u_covering} \alias{s2u_interior} \alias{s2u_coverings}
\alias{s2u_neighbors} \alias{s2u_expanded} \alias{s2u_bounds} \alias{s2u_area} \alias{s2u_zones} \alias{s2u_pairs}
% aliases: all
\title{Unions of S2 cells}
\description{A region is a set of leaf cells, the cells of level 30. It has exactly one list of cells, in which no two
share a leaf and no four are the children of one cell, and exactly one union file and one text.}
\usage{
% usage: all
s2u_leaf(longitude, latitude)
s2u_covering(shape, ...)
s2u_interior(shape, ...)
s2u_coverings(shape, ...)
s2u_neighbors(cell, level = NULL)
s2u_expanded(x, level)
s2u_bounds(x)
s2u_area(x)
s2u_zones(shapes)
s2u_pairs(zones, longitude, latitude, borders = FALSE)
}
\arguments{
\item{x, y}{regions: each an \code{s2_cell} vector in any order, or an \code{s2_cell_union} of length 1.}
\item{cells}{an \code{s2_cell} vector. The answer for \code{NA} is \code{NA}.}
\item{cell}{an \code{s2_cell} vector of length 1, or a region of one cell.}
\item{level}{a level, 0 to 30; of neighbors the cell's own or a deeper one, its own if it is \code{NULL}.}
\item{text}{tokens, with blanks, commas or line ends between them, or in several texts. For \code{s2u_map_geojson},
\code{s2u_map_geojson_up_to} and \code{s2u_geodesic_geojson}, since 1.5, GeoJSON, in one text or several lines, or as
a raw vector of UTF-8.}
% arguments: all
\item{bytes, other}{a raw vector: a union file, as \code{s2u_encode} and S2's own \code{S2CellUnion::Encode} write it.}
\item{longitude, latitude}{degrees, from -540 to 540 and from -90 to 90. The leaf of \code{NA} or \code{NaN} is
\code{NA}.}
\item{shape}{polygons, lines and points in degrees: a raw vector of WKB, as an element of \code{sf::st_as_binary} or
\code{s2_as_binary} is. Or polygons: a list of the rings of one, each a matrix whose rows are positions, longitude
first, the last row the same as the first; or a list of such lists. \code{POLYGON} and \code{MULTIPOLYGON} of package
\code{sf} are these.}
\item{shapes}{a list of shapes.}
\item{zones}{what \code{s2u_zones} returned, in the same session.}
\item{borders}{whether a place on a border is in the zone. If not, it is in none of the polygons that have that border,
and lines have no place.}
\item{...}{in this order: \code{max_cells}, the most cells, 0 to 1,000,000 (200, and 1,000,000 with \code{within});
\code{min_level}, to which cells at the border are at least as deep; \code{max_level}, the deepest (30);
\code{within}, meters: no place of the covering is farther from the shape, if \code{max_cells} allows it;
\code{margin}, meters by which the covering goes beyond the shape and the interior stays away from its border, 0 to
300,000; \code{edges}: \code{"map"} (straight in longitude and latitude), \code{"geodesic"} (the shortest ways; of
each ring the smaller side is inside) or \code{"left"} (the same, with the inside on the left of the rings).}
}
\value{A region is returned as its one list, an \code{s2_cell} vector. \code{s2u_from_tokens} returns the cells that a
text names, in its order, and a union file is checked and isn't copied.
\describe{
% values: all
}
\code{s2u_leaf} returns the leaf at each place, as S2 has it. \code{s2u_covering} returns a union that contains
the shape, \code{s2u_interior} one that lies in its polygons, and \code{s2u_coverings} both, as \code{outer} and
\code{inner}. What is proved of them is that they do so of corners in whole numbers, to which degrees are rounded by 3
mm at most. \code{s2u_neighbors} returns the cells of the level that touch the cell, at an edge or a corner, as a union,
and \code{s2u_expanded} the region with the cells of the level that touch it; of its cells that are deeper, those of
the level that have them are taken. \code{s2u_bounds} returns the \code{west}, \code{south}, \code{east} and
\code{north} of a region in degrees, or \code{NULL} without cells; over the date line the east is less than the west.
\code{s2u_area}, since 1.5, returns the area of a region in square kilometers, on a sphere with the earth's mean radius.
The earth is flattened, so an area there differs by less than 1 percent. These four are tested beside S2, not proved.
\code{s2u_zones}, since 1.5, keeps shapes for exact joins, and \code{s2u_pairs}, since 1.5, returns a data frame with
the numbers of places and zones, \code{place} and \code{zone}, a row for each place and each zone that has it. Edges
are straight in longitude and latitude, and a place of \code{NA} is in no zone. They are tested, not proved.}
\section{Errors}{A wrong value is a condition of class \code{s2union_error}, and of a class with the name of the
library's status: \code{S2U_NO_CELL} (\code{place} is that of the number, or the byte at which the word begins, from 1
on), \code{S2U_FILE_SHORT}, \code{S2U_FILE_VERSION}, \code{S2U_FILE_TRAILING}, \code{S2U_FILE_CELL},
\code{S2U_ARGUMENT} (a level is out of range), or \code{S2U_MANY} (a text would have 2^31 bytes or more, or there would
be more than 1,000,000 neighbors, or 4,000,000 cells around a region and nine for each of its own). Of places and
shapes: \code{S2U_COVER_NUMBER} (a longitude or a latitude is out of range), \code{S2U_COVER_FEW} (a ring has fewer
than four positions), \code{S2U_COVER_OPEN} (its last position isn't its first), \code{S2U_COVER_PIECES} (edges are
too long for so few positions), \code{S2U_COVER_OUTSIDE} (no place is outside), \code{S2U_COVER_OPPOSITE} (two
positions of geodesic edges lie opposite each other); their \code{ring} and \code{place} count from 1.
\code{S2U_COVER_OPTION}: an option is out of range. An error of \code{s2u_zones} has the number of the shape as
\code{zone}.
Of \code{s2u_map_geojson}, \code{s2u_map_geojson_up_to}, \code{s2u_geodesic_geojson} and those of WKB, since 1.5:
\code{S2U_SHAPE}, and a class with the name of the fault, such as \code{S2U_FAULT_OPEN}, with the \code{part}, the
\code{ring} and the \code{place} there, and of WKB the \code{byte}, from 1 on; or \code{S2U_MANY},
if the search would take more than \code{work}.
Of WKB, with \code{place} that of the byte: \code{S2U_COVER_WKB} (it is none), \code{S2U_COVER_TYPE} (curves
or surfaces), \code{S2U_COVER_SRID} (no degrees), \code{S2U_COVER_DEEP} (collections in more than 32 others). An
argument of another type is a simple error.}
\examples{
lawn <- s2u_difference(s2u_from_tokens("04 0c 14 1c"), s2u_from_tokens("14"))
s2u_tokens(lawn)
park <- s2u_covering(list(cbind(c(2, 3, 3, 2), c(48, 48, 49, 48))), max_cells = 20)
s2u_contains_cells(park, s2u_leaf(c(2.9, 2.1), c(48.5, 48.9)))
round(s2u_area(lawn) / s2u_area(s2u_from_tokens("1")), 2)
zones <- s2u_zones(list(list(cbind(c(2, 3, 3, 2), c(48, 48, 49, 48)))))
s2u_pairs(zones, c(2.9, 2.1), c(48.5, 48.9))
% examples: all
}
