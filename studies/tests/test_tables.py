"""Frames, abundance, diversity, phylogeny and roles, on a run of hosts and parasites in a small soup."""
import ast
import collections
import csv
import io
import math
import subprocess

import networkx
import pandas
import pytest

from studies import abundance, diversity, files, frames, phylogeny, printed, roles, soup

from .conftest import DATA, peer

HOLD, BANK = DATA / "mixed.hold", DATA / "mixed.bank"
WORLDS = files.read_hold(HOLD)
COUNTS, LIVING = printed.report_in((DATA / "mixed_dump.txt").read_text())
# What becomes of each genotype that was seen, alone: the ancestor breeds true.
FATES = pandas.DataFrame(
    [(name, "true", True, "breeds true") if name == "0080aaa" else (name, "sterile", False, "no daughter") for name in WORLDS[-1].genotypes.name],
    columns=["name", "fate", "fertile", "said"],
)


def rows(text):
    return list(csv.DictReader(io.StringIO(text)))


def test_frames(told, tmp_path):
    told("frames", HOLD, "--soup", DATA / "mixed.toml", "--into", tmp_path / "tables")
    tables = {name: rows((tmp_path / f"tables/{name}.csv").read_text()) for name in ("counts", "living", "creatures", "genotypes")}
    last = tables["counts"][-1]
    assert {key: int(last[key]) for key in ("births", "deaths", "living", "filled", "genotypes", "kept")} == {
        key: COUNTS[key] for key in ("births", "deaths", "living", "filled", "genotypes", "kept")
    }
    assert {row["name"]: int(row["living"]) for row in tables["living"] if row["quantum"] == "6000"} == {
        name: count for name, (count, _) in LIVING.items()
    }
    curve = printed.curve_in((DATA / "mixed_curve.txt").read_text()).set_index("quantum")
    for row in tables["counts"]:
        if int(row["quantum"]) in curve.index:
            assert [int(row[key]) for key in ("living", "births", "deaths")] == curve.loc[int(row["quantum"])].tolist()
    assert len([row for row in tables["creatures"] if row["quantum"] == "6000"]) == COUNTS["living"]
    saved = {row["name"]: (row["saved"], row["parent"], row["code"]) for row in tables["genotypes"] if row["saved"]}
    assert saved == {one.name: (str(one.quantum), one.parent or "", one.code.hex()) for one in files.read_bank(BANK)}
    daughter = next(row for row in tables["creatures"] if row["name"] == "0044aad")
    assert (daughter["mother_first_run"], daughter["mother_second_run"]) == ("478", "453")  # of 0044aaa, docs/EVOLUTION.md


def test_another_setup_is_refused(refused, tmp_path):
    for verb in ("frames", "abundance", "diversity", "phylogeny", "roles"):
        assert "belongs to another setup" in refused(verb, HOLD, "--soup", DATA / "small.toml")
    (tmp_path / "new.hold").write_bytes(b"\x00" * 50)
    assert "holds no checkpoint" in refused("frames", tmp_path / "new.hold")
    assert "is not a checkpoint" in refused("abundance", BANK)
    assert "neither a genebank nor" in refused("phylogeny", DATA / "mixed.toml")
    assert "No such file" in refused("frames", tmp_path / "none")


def test_abundance():
    table = abundance.abundance(WORLDS)
    assert table.loc[6000][table.loc[6000] > 0].to_dict() == {name: count for name, (count, _) in LIVING.items()}
    few = abundance.abundance(WORLDS, most=3)
    assert (few.sum(axis=1) == table.sum(axis=1)).all() and list(few.columns[-1:]) == ["others"] and few.shape[1] == 4
    sizes = abundance.abundance(WORLDS, by="size").loc[6000]
    assert sizes[80] == 4 and sizes[44] == 18 and sizes.sum() == COUNTS["living"]


def test_few_have_no_colour():
    """Of those without a column of their own, the classes of size leave at most a quarter of all creatures."""
    whole = abundance.abundance(WORLDS)
    for most in (1, 3):
        table = abundance.with_size_classes(WORLDS, most)
        assert (table.sum(axis=1) == whole.sum(axis=1)).all()
        assert "others" not in table or table.others.sum() <= whole.sum().sum() / 4
        assert [column for column in table if not column.startswith("others")] == list(abundance.abundance(WORLDS, most=most).columns[:-1])
    classes = abundance.with_size_classes(WORLDS, 1, share=0)
    sizes = abundance.abundance(WORLDS, by="size")
    shown = whole.get(classes.columns[0], 0) * classes.columns[0].startswith("004")
    assert classes["others of 40 to 49"].tolist() == (sizes[[43, 44]].sum(axis=1) - shown).tolist()
    assert "others" not in classes and abundance.size_class(80) == "80 to 89" and abundance.size_class(7) == "0 to 9"


@pytest.mark.parametrize("parents, order", [([None, 0, 0, 1], [0, 1, 3, 2]), ([None, None, 0, 1, 2], [0, 2, 4, 1, 3])])
def test_muller_order(parents, order):
    table = pandas.DataFrame({"genotype": range(len(parents)), "parent": pandas.Series(parents, dtype=object)})
    assert abundance.muller_order(table) == order


def by_hand(counts):
    """Richness, Shannon and Simpson by their definitions."""
    shares = [count / sum(counts) for count in counts]
    return len(counts), -sum(share * math.log(share) for share in shares), 1 - sum(share**2 for share in shares)


def test_diversity():
    last = diversity.diversity(WORLDS).iloc[-1]
    assert (last.richness, last.shannon, last.simpson) == pytest.approx(by_hand([count for count, _ in LIVING.values()]))


@peer("vegan")
def test_diversity_is_that_of_vegan(tmp_path):
    abundance.abundance(WORLDS).to_csv(tmp_path / "table.csv")
    script = (
        "library(vegan); t <- as.matrix(read.csv('table.csv', row.names = 1)); "
        "write.csv(data.frame(specnumber(t), diversity(t), diversity(t, 'simpson')), 'out.csv')"
    )
    subprocess.run(["Rscript", "-e", script], cwd=tmp_path, check=True, capture_output=True)
    theirs, ours = pandas.read_csv(tmp_path / "out.csv", index_col=0), diversity.diversity(WORLDS)
    for column, mine in zip(theirs.columns, ("richness", "shannon", "simpson")):
        assert theirs[column].tolist() == pytest.approx(ours[mine].tolist(), abs=1e-12)


@peer("pandas")
def test_pandas_reads_the_tables(told, tmp_path):
    """What is read back has the kinds and the values that were written, codes and all; `code` is said to be text."""
    told("frames", HOLD, "--into", tmp_path)
    for name, made in frames.tables(WORLDS).items():
        read = pandas.read_csv(tmp_path / f"{name}.csv", dtype={"code": str})
        pandas.testing.assert_frame_equal(read.astype(made.dtypes.to_dict()), made)


@peer("networkx")
def test_networkx_reads_the_graph(told, tmp_path):
    """The GraphML has an edge for each pair that the table of creatures has, and how often; the phylogeny is a forest."""
    seen = roles.seen_in(WORLDS)
    table = roles.roles(seen, FATES)
    networkx.write_graphml(roles.graph(seen, table), tmp_path / "who.graphml")
    read = networkx.read_graphml(tmp_path / "who.graphml")
    told_of = collections.Counter((row["name"], row["runs_name"]) for row in rows(told("roles", HOLD, "--creatures")) if row["runs"] == "other")
    assert networkx.get_edge_attributes(read, "times") == told_of and networkx.get_node_attributes(read, "role") == table.role.to_dict()
    tree = networkx.DiGraph()
    for row in rows(told("phylogeny", HOLD)):
        tree.add_node(row["id"])
        tree.add_edges_from([(row["ancestor_list"][1:-1], row["id"])] if row["ancestor_list"] != "[NONE]" else [])
    assert networkx.is_branching(tree) and len(tree) == len(WORLDS[-1].genotypes)


@pytest.mark.parametrize("path", [HOLD, BANK])
def test_phylogeny(told, tmp_path, path):
    table = rows(told("phylogeny", path, "--newick", tmp_path / "tree.nwk"))
    times = {row["id"]: int(row["origin_time"]) for row in table}
    for row in table:
        assert row["ancestor_list"] == "[NONE]" or times[row["ancestor_list"][1:-1]] <= times[row["id"]]
    names = {row["id"]: row["taxon_label"] for row in table}
    parents = {names[row["id"]]: names.get(row["ancestor_list"][1:-1]) for row in table}
    assert all(parents[one.name] == one.parent for one in files.read_bank(BANK))
    assert parents["0044aad"] == "0044aaa" and parents["0080aaa"] is None


def faults_of(table):
    """What the checks of the ALife data standard for phylogenies find wrong: the columns, the numbers and the lists of ancestors."""
    faults = [column for column in ("id", "ancestor_list") if column not in table]
    if table.id.duplicated().any() or not (table.id.astype("int64") >= 0).all():
        faults.append("id")
    ids = dict(zip(table.id, table.index))
    for row in table.itertuples():
        if row.ancestor_list != "[NONE]" and not set(ast.literal_eval(row.ancestor_list)) <= set(ids) - {row.id}:
            return [*faults, f"ancestors of {row.id}"]
    tree = networkx.DiGraph((parent, one) for one, parent in phylogeny.parents_of(table).items() if parent is not None)
    if not networkx.is_directed_acyclic_graph(tree):
        faults.append("a circle")
    times = table.set_index("id").origin_time
    faults += [f"origin of {one}" for parent, one in tree.edges if times[parent] > times[one]]
    ended = table.dropna(subset=["destruction_time"])
    return faults + [f"end of {row.id}" for row in ended.itertuples() if row.destruction_time < row.origin_time]


@pytest.mark.parametrize("path", [HOLD, BANK, DATA / "mixed_all.bank"])
def test_the_table_is_of_the_standard(told, path):
    table = pandas.read_csv(io.StringIO(told("phylogeny", path)))
    assert faults_of(table) == []
    assert faults_of(table.assign(ancestor_list=["[99999]", *table.ancestor_list[1:]])) == ["ancestors of 0"]
    assert faults_of(table.assign(origin_time=table.origin_time.max() - table.origin_time)) != []


def test_abundance_in_the_tree():
    """The report says how many of a genotype live and how many ever lived."""
    table = phylogeny.of_worlds(WORLDS).set_index("taxon_label")
    assert {name: (table.living[name], table.abundance[name]) for name in LIVING} == LIVING
    assert table.living.sum() == COUNTS["living"] and table.abundance.sum() == COUNTS["births"] + len(soup.creatures(soup.read(DATA / "mixed.toml")))


def test_times_of_the_tree():
    table = phylogeny.of_worlds(WORLDS).set_index("taxon_label")
    for row in table.itertuples():
        seen = [world.quanta for world in WORLDS if (world.records["genotype"] == row.id).any()]
        assert (row.last_seen if seen else None) == (seen[-1] if seen else None)
        if pandas.isna(row.destruction_time):
            assert row.Index in LIVING
        else:
            assert row.Index not in LIVING and row.destruction_time >= row.origin_time
    assert table.origin_time["0044aad"] == 2791 and table.destruction_time["0044aac"] == 4800
    living = phylogeny.of_the_living(phylogeny.of_worlds(WORLDS))
    assert set(living.taxon_label) == {"0080aaa", "0044aaa", "0044aad", "0044aae", "0043aab", "0043aac", "0025aaa"}


def test_a_genebank_of_all_has_the_same_tree():
    """With save_at = 1 the genebank has every genotype: parents, times and codes are those of the checkpoints."""
    bank, hold = phylogeny.table_of(DATA / "mixed_all.bank"), phylogeny.table_of(HOLD)
    trees = []
    for table in (bank, hold):
        labels = table.set_index("id").taxon_label
        parents = [labels.get(phylogeny.parents_of(table)[one]) for one in table.id]
        trees.append({row.taxon_label: (parent, row.origin_time, row.sequence) for parent, row in zip(parents, table.itertuples())})
    assert trees[0] == trees[1] and bank.missing_parent.isna().all()


def saved(name, quantum, parent):
    return files.Saved(name, 80, quantum, parent, dict.fromkeys(files.EFFORTS), b"\x00")


def test_what_a_genebank_lacks(capsys):
    """A parent that was saved after its daughter was born before her; one that was never saved is named."""
    known = [saved("0080aaa", 5, None), saved("0080aac", 70, "0080aab"), saved("0080aab", 90, "0080aaa")]
    table = phylogeny.of_bank([*known, saved("0080aae", 95, "0080aad")])
    assert dict(zip(table.taxon_label, table.origin_time)) == {"0080aaa": 5, "0080aac": 70, "0080aab": 70, "0080aae": 95}
    assert table.ancestor_list.tolist() == ["[NONE]", "[2]", "[0]", "[NONE]"] and table.missing_parent[3] == "0080aad"
    phylogeny.tell_missing(table)
    assert "lacks 1 parents (0080aad)" in capsys.readouterr().err
    assert phylogeny.newick(table) == "((0080aac:0)0080aab:65)0080aaa:5;\n0080aae:95;\n"


def shape(table):
    """For each root, in order: tips, the greatest depth in branches, and Sackin's index (the depths of all tips added up)."""
    tree = networkx.DiGraph([(parent, one) for one, parent in phylogeny.parents_of(table).items() if parent is not None])
    tree.add_nodes_from(table.id)
    shapes = []
    for root in (one for one in table.id if tree.in_degree(one) == 0):
        depths = networkx.single_source_shortest_path_length(tree, root)
        tips = [depth for one, depth in depths.items() if tree.out_degree(one) == 0]
        shapes.append((len(tips), max(tips), sum(tips)))
    return shapes


def trees(tmp_path):
    table = phylogeny.of_worlds(WORLDS)
    table = table[table.taxon_label != "0080aab"]  # any tree will do: this one has other counts in each part
    (tmp_path / "tree.nwk").write_text(phylogeny.newick(table))
    return tmp_path / "tree.nwk", shape(table)


@peer("DendroPy")
def test_dendropy_reads_the_tree(tmp_path):
    import dendropy

    path, shapes = trees(tmp_path)
    found = []
    for tree in dendropy.TreeList.get(path=str(path), schema="newick", suppress_internal_node_taxa=True):
        depths = [leaf.level() for leaf in tree.leaf_node_iter()]
        found.append((len(tree.leaf_nodes()), max(depths), sum(depths)))
    assert found == shapes


@peer("Biopython")
def test_biopython_reads_the_tree(tmp_path):
    from Bio import Phylo

    path, shapes = trees(tmp_path)
    found = []
    for tree in Phylo.parse(path, "newick"):
        depths = tree.depths(unit_branch_lengths=True)
        tips = [depths[tip] - depths[tree.root] for tip in tree.get_terminals()]
        found.append((len(tips), max(tips), sum(tips)))
    assert found == shapes


@peer("ete3")
def test_ete3_reads_the_tree(tmp_path):
    """Its format 1 has the names of inner nodes."""
    import ete3

    path, shapes = trees(tmp_path)
    found, names = [], []
    for line in path.read_text().splitlines():
        tree = ete3.Tree(line, format=1)
        depths = [len(tip.get_ancestors()) for tip in tree.get_leaves()]
        found.append((len(depths), max(depths), sum(depths)))
        names += [node.name for node in tree.traverse()]
    assert found == shapes and sorted(names) == sorted(name for name in WORLDS[-1].genotypes.name if name != "0080aab")


@peer("scikit-bio")
def test_scikit_bio_reads_the_tree(tmp_path):
    import skbio

    path, shapes = trees(tmp_path)
    found = []
    for line in path.read_text().splitlines():
        tree = skbio.TreeNode.read(io.StringIO(line), format="newick", convert_underscores=False)
        depths = [len(tip.ancestors()) for tip in tree.tips()]
        found.append((len(depths), max(depths), sum(depths)))
    assert found == shapes


@peer("ape")
def test_ape_reads_the_tree(tmp_path):
    path, shapes = trees(tmp_path)
    script = (
        "library(ape); for (t in c(read.tree('tree.nwk'))) { t$edge.length[] <- 1; d <- node.depth.edgelength(t)[seq_len(Ntip(t))]; "
        "cat(Ntip(t), max(d), sum(d), '\\n') }"
    )
    said = subprocess.run(["Rscript", "-e", script], cwd=tmp_path, check=True, capture_output=True, text=True).stdout
    assert [tuple(map(int, line.split())) for line in said.splitlines()] == shapes


# A soup of 100 cells: a host at 0, a parasite at 20 that runs the host's cells, one at 40 in a free cell, one at 60 that copies the
# host's genome in the host's cells, and one at 80 that runs its own daughter block at 90.
MOMENT = pandas.DataFrame(
    [
        dict(id=1, name="0020aaa", at=0, size=20, daughter_at=0, daughter_size=0, ip=3, ax=0, bx=0),
        dict(id=2, name="0010aaa", at=20, size=10, daughter_at=30, daughter_size=10, ip=7, ax=34, bx=24),
        dict(id=3, name="0010aaa", at=40, size=10, daughter_at=0, daughter_size=0, ip=55, ax=3, bx=0),
        dict(id=4, name="0010aab", at=60, size=10, daughter_at=0, daughter_size=0, ip=19, ax=0, bx=4),
        dict(id=5, name="0010aac", at=80, size=10, daughter_at=90, daughter_size=10, ip=95, ax=-9, bx=101),
    ]
)


def test_whose_cells():
    table = roles.who_runs_whom(MOMENT, 100, 7)
    assert table.runs.tolist() == ["own", "other", "free", "other", "daughter"]
    assert table.runs_name.tolist() == ["0020aaa", "0020aaa", None, "0020aaa", "0010aac"]
    assert table.copies.tolist() == [None, "own", None, None, "other"] and table.copies_name[4] == "0020aaa"


@pytest.mark.parametrize("copying, robbed, role", [(0, 0, "host"), (2, 2, "host"), (4, 2, "host"), (4, 3, "hyperparasite")])
def test_hyperparasites(copying, robbed, role):
    seen = roles.who_runs_whom(pandas.concat([MOMENT[:1], *[MOMENT[1:2]] * max(copying, 1)], ignore_index=True), 100, 7)
    visits = seen.runs == "other"
    seen.loc[visits, "copies"] = "own" if copying else None
    seen["copies_host"] = visits & (visits.cumsum() <= robbed)
    fates = pandas.DataFrame({"name": ["0020aaa", "0010aaa"], "fate": ["true", "another"], "fertile": [True, False], "said": "alone"})
    table = roles.roles(seen, fates)
    assert table.role["0020aaa"] == role and table.role["0010aaa"] == "parasite"


def test_roles_of_the_run():
    seen = roles.seen_in(WORLDS)
    table = roles.roles(seen, FATES)
    assert table.role["0080aaa"] == "host" and table.role["0044aaa"] == "parasite" and table.role["0025aaa"] == "idle"
    row = table.loc["0025aaa"]
    assert row.said == f"{row.seen} seen with 0 in cells of others; {row.visits} parasites in its cells; no daughter"
    assert f"{table.copying['0080aaa']} copying and {table.robbed['0080aaa']} of these its own genome; breeds true" in table.said["0080aaa"]
    counted = roles.counts(seen, table)
    assert counted.sum(axis=1).tolist() == [len(world.records) for world in WORLDS]
    made = roles.graph(seen, table)
    assert made.edges["0044aaa", "0080aaa"]["times"] > 50 and not made.has_edge("0080aaa", "0044aaa")


def test_a_dump_shows_what_the_frame_shows():
    seen, codes = roles.read(DATA / "mixed_dump.txt")
    frame = roles.seen_in(WORLDS[-1:]).reset_index(drop=True)
    pandas.testing.assert_frame_equal(seen[frame.columns], frame)
    genotypes = WORLDS[-1].genotypes.set_index("name")
    assert codes["0044aad"] == genotypes.code["0044aad"]


def test_roles_rest_on_who_breeds_true(told, built, tmp_path, monkeypatch):
    """The command asks of each genotype whether it breeds true. One that has daughters, none of which breeds true, is no host."""
    monkeypatch.chdir(tmp_path)
    table = {row["name"]: row for row in rows(told("roles", HOLD))}
    assert (table["0080aaa"]["fate"], table["0080aaa"]["role"]) == ("true", "host")
    assert table["0080aaa"]["said"].endswith("with default settings: breeds true; 3 of its first 3 daughters with its code")
    assert told("roles", HOLD, "--counts").splitlines()[-1].startswith("6000,4,0,")
    seen = roles.seen_in(WORLDS)
    barren = FATES.assign(fate="another", fertile=False)
    assert roles.roles(seen, barren).role["0080aaa"] in ("idle", "parasite")


def test_roles_refuse(refused, stand_in, tmp_path):
    assert "is no file of assays" in refused("roles", HOLD, "--kept", HOLD)
    (tmp_path / "dump.txt").write_text("quanta 5\n")
    assert "no dump" in refused("roles", tmp_path / "dump.txt")
