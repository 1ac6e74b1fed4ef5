// OpenMesh: its uniform Loop subdivider, which keeps the last level alone.
#include <OpenMesh/Core/Mesh/TriMesh_ArrayKernelT.hh>
#include <OpenMesh/Tools/Subdivider/Uniform/LoopT.hh>

#include "clock.h"
#include "engines.h"

Foreign REFINE(const Cage& cage, int depth) {
  OpenMesh::TriMesh_ArrayKernelT<> mesh;
  for (size_t i = 0; i < cage.points.size(); i += 3)
    mesh.add_vertex({float(cage.points[i]), float(cage.points[i + 1]), float(cage.points[i + 2])});
  for (size_t h = 0; h < cage.vert.size(); h += 3)
    mesh.add_face(mesh.vertex_handle(cage.vert[h]), mesh.vertex_handle(cage.vert[h + 1]),
                  mesh.vertex_handle(cage.vert[h + 2]));
  OpenMesh::Subdivider::Uniform::LoopT<decltype(mesh)> loop;
  loop.attach(mesh);
  const double time = seconds([&] { loop(size_t(depth)); });
  loop.detach();
  return {time, mesh.n_faces(), mesh.n_vertices()};
}
