// The gemmi side: reads a kept text, so that the copy into a std::string is not measured.
#include <cstddef>
#include <exception>
#include <string>

#include <gemmi/pdb.hpp>

static std::string kept;

extern "C" void bench_gemmi_keep(const char *text, std::size_t n) { kept.assign(text, n); }

// The atoms that gemmi finds in the kept text, 0 if it refuses.
extern "C" std::size_t bench_gemmi_read() {
    try {
        const gemmi::Structure structure = gemmi::read_pdb_string(kept, "bench");
        std::size_t atoms = 0;
        for (const gemmi::Model &model : structure.models)
            for (const gemmi::Chain &chain : model.chains)
                for (const gemmi::Residue &residue : chain.residues)
                    atoms += residue.atoms.size();
        return atoms;
    } catch (const std::exception &) {
        return 0;
    }
}
