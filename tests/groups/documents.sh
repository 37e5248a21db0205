# shellcheck shell=bash disable=SC2154
# What the documents and the header say of the sources is so; each sentence of the papers has its row. No link leads nowhere, in the
# pages and in the reference that is made of them, and the manual has a page for each function.
# touched by: *.md docs/* crates/* crates.txt tests/*.py include/* packaging/docs/* examples/* bindings/rust/* answers/* model/*

test_documents() {
    need python3 python3 && need pandoc pandoc && log tests/documents.py && log tests/trace.py && log tests/way.py && log tests/links.py &&
        log packaging/docs/build.py "$work/docs" && log tests/links.py "$work/docs" && reference
}

# Each function that a header declares has its place in the reference, and each but the archive's own, which have one comment together, its
# page of the manual. A link that leads nowhere is noticed.
reference() {
    local name
    log packaging/docs/build.py --man3 "$work/man3" && [ -s "$work/man3/tillerclover_judge.3" ] || return 1
    while read -r name; do
        grep -qs "id=\"$name\"" "$work"/docs/*.h.html || { echo "documents: the reference has no $name" && return 1; }
        [[ $name = *_at ]] || [ -s "$work/man3/$name.3" ] || { echo "documents: $name has no comment, and no page of the manual" && return 1; }
    done < <(grep -hoE '\btillerclover_[a-z0-9_]+\(' include/*.h | tr -d '(' | sort -u)
    sed -i 's/href="TOOL.html"/href="TOOLS.html"/' "$work/docs/index.html"
    ! tests/links.py "$work/docs" >/dev/null || { echo "documents: a link that leads nowhere is not noticed" && return 1; }
}
