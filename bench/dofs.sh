#!/bin/sh
# Times the numbering of elements beside straight C++ with a hash map of labels, and prints milliseconds, memory and their
# ratios: below 1 the numbering is faster or smaller. Both number the rows in the order of labels and group the places of
# each row. The meshes are a ring of 1,000,000 intervals, every other one the other way round, a square of 500,000 triangles
# and a cube of 196,608 tetrahedra, each in order and shuffled: vertices, cells and the vertices of each cell in random order.
# Elements are of degree 1 to 3, and vectors of equal parts, which the C++ numbers once and shifts. Memory is the most that
# the whole program has at once, with the mesh and its text. Run it at the top of the repository: sh bench/dofs.sh
# It works on a copy, since a program that only prints times is no part of the gate.
set -e
copy=$(mktemp -d)
trap 'rm -rf "$copy"' EXIT
mkdir "$copy"/crates
cp HANDLES "$copy"
for crate in algebra ratio calculus spaces mesh_in dofs; do
    cp -r crates/$crate "$copy"/crates
    grep "^$crate:" crates.txt >> "$copy"/crates.txt
done
cd "$copy"
rt new crates/dofs_race start_io > /dev/null
rm -rf crates/dofs_race/proofs crates/dofs_race/specs crates/dofs_race/stdin crates/dofs_race/stdout crates/dofs_race/out
rm -f crates/dofs_race/src/*
mkdir -p crates/dofs_race/proofs crates/dofs_race/specs
touch crates/dofs_race/proofs/Lib.antt crates/dofs_race/specs/Lib.antt
echo 'dofs_race: algebra calculus ratio sqlite_items spaces mesh_in dofs' >> crates.txt
cat > meshes.cpp <<'EOC'
// Writes a mesh: KIND is 1 for a ring of N intervals, 2 for a square of 2*N*N triangles, 3 for a cube of 6*N*N*N tetrahedra.
#include <algorithm>
#include <array>
#include <cstdint>
#include <cstdio>
#include <cstdlib>
#include <numeric>
#include <random>
#include <vector>
using namespace std;
int main(int argc,char**argv){
  int d=atoi(argv[1]), n=atoi(argv[2]); bool shuffled=atoi(argv[3]);
  const char *kinds[]={"","interval","triangle","tetrahedron"};
  vector<array<int,3>> points; vector<array<uint32_t,4>> cells; uint32_t s=n+1;
  if(d==1) for(int k=0;k<n;k++){points.push_back({k,0,0}); uint32_t u=k, v=k+1<n?k+1:0; if(k%2) swap(u,v); cells.push_back({u,v,0,0});}
  else {
    for(int z=0;z<=(d>2?n:0);z++) for(int y=0;y<=n;y++) for(int x=0;x<=n;x++) points.push_back({x,y,z});
    for(int z=0;z<(d>2?n:1);z++) for(int y=0;y<n;y++) for(int x=0;x<n;x++){
      uint32_t a=x+s*y+s*s*z, step[3]={1,s,s*s}; array<int,3> o={0,1,2};
      do { uint32_t b=a+step[o[0]], c=b+step[o[1]]; cells.push_back({a,b,c,d>2?c+step[o[2]]:0}); }
      while(d>2 ? next_permutation(o.begin(),o.end()) : (next_permutation(o.begin(),o.begin()+2))); }}
  if(shuffled){ mt19937 r(1); vector<uint32_t> to(points.size()); iota(to.begin(),to.end(),0u); shuffle(to.begin(),to.end(),r);
    vector<array<int,3>> moved(points.size()); for(size_t k=0;k<to.size();k++) moved[to[k]]=points[k]; points.swap(moved);
    for(auto &c:cells){ for(int i=0;i<=d;i++) c[i]=to[c[i]]; shuffle(c.begin(),c.begin()+d+1,r); }
    shuffle(cells.begin(),cells.end(),r); }
  printf("mesh 1 %s %zu %zu\n",kinds[d],points.size(),cells.size());
  for(auto &p:points){for(int i=0;i<d;i++) printf(i?" %d":"%d",p[i]); puts("");}
  for(auto &c:cells){for(int i=0;i<=d;i++) printf(i?" %u":"%u",c[i]); puts("");}
}
EOC
cat > yard.cpp <<'EOC'
// Rows of an element of so many equal parts of a degree: straight C++ with a hash map of labels.
#include <algorithm>
#include <chrono>
#include <cstdint>
#include <cstdio>
#include <cstdlib>
#include <string>
#include <unordered_map>
#include <vector>
using namespace std;
typedef __int128 i128;
struct Label { uint8_t count; uint32_t v[3]; uint8_t w[3];
  bool operator==(const Label &o) const { return count==o.count&&v[0]==o.v[0]&&v[1]==o.v[1]&&v[2]==o.v[2]&&w[0]==o.w[0]&&w[1]==o.w[1]&&w[2]==o.w[2]; }
  bool operator<(const Label &o) const {
    if(count!=o.count) return count<o.count;
    for(int i=0;i<3;i++) if(v[i]!=o.v[i]) return v[i]<o.v[i];
    for(int i=0;i<3;i++) if(w[i]!=o.w[i]) return w[i]<o.w[i];
    return false; } };
struct Hash { size_t operator()(const Label &l) const {
  uint64_t h=l.count; for(int i=0;i<3;i++){h=h*0x9E3779B97F4A7C15ull+l.v[i];h^=h>>29;h=h*0x9E3779B97F4A7C15ull+l.w[i];} return h^(h>>32);} };
// All weights of d + 1 vertices that add up to q.
static void nodes(int d, int q, vector<uint8_t> &w, vector<vector<uint8_t>> &all) {
  if((int)w.size()==d){w.push_back(q); all.push_back(w); w.pop_back(); return;}
  for(int k=q;k>=0;k--){w.push_back(k); nodes(d,q-k,w,all); w.pop_back();} }
int main(int argc,char**argv){
  int d=atoi(argv[2]), q=atoi(argv[3]); uint32_t parts=atoi(argv[4]);
  FILE *f=fopen(argv[1],"r"); fseek(f,0,SEEK_END); string text(ftell(f),' '); rewind(f); if(fread(&text[0],1,text.size(),f)!=text.size()) return 1;
  char *at=&text[0]; while(*at!=' ') at++; at++; while(*at!=' ') at++; at++; while(*at!=' ') at++;
  auto next=[&](){return (uint32_t)strtoul(at,&at,10);};
  uint32_t vertices=next(), cells=next();
  vector<i128> points(2*(size_t)d*vertices); for(size_t k=0;k<points.size();k+=2){points[k]=next(); points[k+1]=1;}
  vector<uint32_t> m((size_t)(d+1)*cells); for(auto &v:m) v=next();
  auto t=chrono::steady_clock::now();
  vector<uint8_t> w; vector<vector<uint8_t>> all; nodes(d,q,w,all); size_t local=all.size();
  unordered_map<Label,uint32_t,Hash> map; vector<Label> labels; vector<uint32_t> part; part.reserve(cells*local);
  for(uint32_t k=0;k<cells;k++) for(auto &n:all){
    Label l{};
    for(int i=0;i<=d;i++) if(n[i]){ int j=l.count++; uint32_t v=m[(size_t)(d+1)*k+i];
      for(;j>0&&l.v[j-1]>v;j--){l.v[j]=l.v[j-1];l.w[j]=l.w[j-1];} l.v[j]=v; l.w[j]=n[i]; }
    auto r=map.try_emplace(l,(uint32_t)labels.size()); if(r.second) labels.push_back(l); part.push_back(r.first->second);}
  vector<uint32_t> order(labels.size()), place(labels.size());
  for(uint32_t i=0;i<order.size();i++) order[i]=i;
  sort(order.begin(),order.end(),[&](uint32_t a,uint32_t b){return labels[a]<labels[b];});
  vector<Label> sorted(labels.size());
  for(uint32_t i=0;i<order.size();i++){sorted[i]=labels[order[i]];place[order[i]]=i;}
  uint32_t count=labels.size(), size=parts*local;
  vector<uint32_t> rows((size_t)cells*size);
  for(uint32_t k=0;k<cells;k++) for(uint32_t p=0;p<parts;p++) for(size_t a=0;a<local;a++)
    rows[(size_t)k*size+p*local+a]=p*count+place[part[k*local+a]];
  vector<uint32_t> starts((size_t)parts*count+1); vector<pair<uint32_t,uint32_t>> places(rows.size());
  for(auto r:rows) starts[r]++;
  uint32_t sum=0; for(auto&s:starts){sum+=s;s=sum;}
  for(size_t i=rows.size();i-->0;) places[--starts[rows[i]]]={(uint32_t)(i/size),(uint32_t)(i%size)};
  auto ms=chrono::duration_cast<chrono::milliseconds>(chrono::steady_clock::now()-t).count();
  printf("race %u %ld %u\n",parts*count,(long)ms,places[places.size()/2].first);
}
EOC
c++ -O2 -std=c++17 -o meshes meshes.cpp
c++ -O2 -std=c++17 -o yard yard.cpp
cat > crates/dofs_race/src/main.rt <<'EOR'
//! Milliseconds to number an element on the mesh of the file `mesh`. The file `element` has three digits: the dimension of the
//! cells, the degree, and the number of equal parts.
#![tactic(auto)]

use dofs::number;
use mesh_in::read_mesh;
use spaces::{Cell, Element, Family};
use std::alloc::Global;
use std::fs;
use std::io;
use std::time::Instant;

fn digit(text: &[u8], i: usize) -> u8 {
    match text.get(i) {
        Some(byte) => byte.wrapping_sub(b'0'),
        None => 0,
    }
}

fn cell_of(dimension: u8) -> Cell {
    match dimension {
        1 => Cell::Interval,
        2 => Cell::Triangle,
        _ => Cell::Tetrahedron,
    }
}

fn element_of(alloc: Global, text: &[u8]) -> Option<Element> {
    let scalar = Element::scalar(Family::Lagrange, cell_of(digit(text, 0)), digit(text, 1))?;
    match digit(text, 2) {
        1 => Some(scalar),
        parts => Element::vector(alloc, scalar, parts).ok(),
    }
}

fn main(rt: HostRuntime) -> io::Result<()> {
    let what = fs::read_to_string(&rt, "element")?;
    let text = fs::read_to_string(&rt, "mesh")?;
    if let Some(element) = element_of(rt.alloc(), what.as_str().as_bytes()) {
        if let Ok(mesh) = read_mesh(rt.alloc(), text.as_str().as_bytes()) {
            if mesh.kind() == element.cell() {
                let start = Instant::now(&rt)?;
                if let Ok(map) = number(rt.alloc(), &mesh, &element) {
                    let time = start.elapsed(&rt)?.as_millis();
                    let rows = map.count();
                    println!(rt; "race {rows} {time}")?;
                }
            }
        }
    }
    Ok(())
}
EOR
cd crates/dofs_race
../../meshes 1 1000 0 > mesh
printf 111 > element
rt run > run.log 2>&1 || { cat run.log; exit 1; }
for size in 1000000 500 32; do
    case $size in 1000000) d=1 cells=intervals ;; 500) d=2 cells=triangles ;; 32) d=3 cells=tetrahedra ;; esac
    for shuffled in 0 1; do
        ../../meshes $d $size $shuffled > mesh
        case $shuffled in 0) how='in order' ;; 1) how=shuffled ;; esac
        for element in 1,1 2,1 3,1 1,$((d + 1)) 2,$((d + 1)); do
            degree=${element%,*} parts=${element#*,}
            printf "$d$degree$parts" > element
            /usr/bin/time -o kept -f %M out/dofs_race > ours
            /usr/bin/time -o straight -f %M ../../yard mesh $d $degree $parts > theirs
            read -r _ rows time < ours
            read -r _ others straight _ < theirs
            [ "$rows" = "$others" ] || { echo "rows differ: $rows and $others"; exit 1; }
            echo "$cells $how, $parts of degree $degree, $rows rows: $time ms, C++ $straight ms"
            awk "BEGIN { printf \"  ratio of times %.2f, of memory %.2f (%d MB)\\n\",
                $time / $straight, $(cat kept) / $(cat straight), $(cat kept) / 1024 }"
        done
    done
done
