// S2's leaves of points. Reads a longitude and a latitude a line, in degrees; writes the tokens of their leaves.
#include <s2/s2cell_id.h>
#include <s2/s2latlng.h>
#include <iostream>

int main() {
  for (double longitude, latitude; std::cin >> longitude >> latitude;)
    std::cout << S2CellId(S2LatLng::FromDegrees(latitude, longitude)).ToToken() << "\n";
}
