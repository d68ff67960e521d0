# True for what SPDX 2.3 asks of a document such as ours: its fields, and that each name that a relationship has is there.
([.SPDXID, .packages[].SPDXID]) as $names
| .spdxVersion == "SPDX-2.3" and .dataLicense == "CC0-1.0" and .SPDXID == "SPDXRef-DOCUMENT"
and (.documentNamespace | test("^[a-z]+:[^#]+$")) and (.creationInfo.created | fromdate > 0)
and (.creationInfo.creators | length > 0 and all(test("^(Tool|Person|Organization): ")))
and (.packages | length > 3 and all(.name and .downloadLocation and (.SPDXID | test("^SPDXRef-[A-Za-z0-9.-]+$"))))
and ([.packages[].checksums[]?] | length > 0 and all(.algorithm == "SHA256" and (.checksumValue | test("^[0-9a-f]{64}$"))))
and ($names | length == (unique | length))
and (.relationships | length > 0 and all(.relationshipType and ([.spdxElementId, .relatedSpdxElement] - $names == [])))
