// Prints corners.txt: of 300 random cells of S2, the face, i and j of the first corner, and its longitude and latitude.
//     g++ -std=c++17 corners.cc -ls2 && ./a.out > corners.txt
#include <s2/s2cell.h>
#include <s2/s2latlng.h>

#include <cstdio>
#include <random>

int main() {
  std::mt19937_64 random(52);
  for (int n = 0; n < 300; n++) {
    int level = random() % 31, face = random() % 6, i, j, orientation;
    S2CellId id = S2CellId::FromFacePosLevel(face, random() >> 3, level);
    id.ToFaceIJOrientation(&i, &j, &orientation);
    int size = S2CellId::GetSizeIJ(level);
    S2LatLng corner(S2Cell(id).GetVertex(0));
    std::printf("%d %d %d %.12f %.12f\n", face, i & -size, j & -size, corner.lng().degrees(), corner.lat().degrees());
  }
}
