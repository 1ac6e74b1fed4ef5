// CGAL: Loop subdivision of a surface mesh, which keeps the last level alone.
#include <CGAL/Simple_cartesian.h>
#include <CGAL/Surface_mesh.h>
#include <CGAL/subdivision_method_3.h>

#include "clock.h"
#include "engines.h"

Foreign REFINE(const Cage& cage, int depth) {
  using Point = CGAL::Simple_cartesian<double>::Point_3;
  using Mesh = CGAL::Surface_mesh<Point>;
  Mesh mesh;
  for (size_t i = 0; i < cage.points.size(); i += 3)
    mesh.add_vertex(Point(cage.points[i], cage.points[i + 1], cage.points[i + 2]));
  for (size_t h = 0; h < cage.vert.size(); h += 3)
    mesh.add_face(Mesh::Vertex_index(cage.vert[h]), Mesh::Vertex_index(cage.vert[h + 1]),
                  Mesh::Vertex_index(cage.vert[h + 2]));
  const double time =
      seconds([&] { CGAL::Subdivision_method_3::Loop_subdivision(mesh, CGAL::parameters::number_of_iterations(depth)); });
  return {time, mesh.number_of_faces(), mesh.number_of_vertices()};
}
