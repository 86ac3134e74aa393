//! Links the delivered libraries into the programs of this package, each by the entries that its
//! program calls.

fn main() {
    seal::link(
        "conformity",
        &[
            "conformity_append",
            "conformity_append_sized",
            "conformity_report",
            "conformity_report_sized",
        ],
        "compare",
    );
    seal::link(
        "conformity",
        &["conformity_convert", "conformity_report_sized"],
        "compare_convert",
    );
    seal::link(
        "conformity",
        &["conformity_finding", "conformity_report_sized"],
        "compare_findings",
    );
    seal::link("conformity", &["conformity_declared"], "compare_declared");
    seal::link(
        "probe",
        &[
            "probe_logarithm",
            "probe_evidence",
            "probe_lines",
            "probe_step",
        ],
        "compare_probe",
    );
}
