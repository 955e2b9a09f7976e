# A recipe of Yocto for a release that is made already. RELEASE is its folder, and SOURCE the repository of that commit, both as
# absolute paths from local.conf or from the layer. Written to be read with Yocto 4.0; it was never run.
SUMMARY = "Device side of a Mender update without a server"
LICENSE = "CLOSED"
INSANE_SKIP:${PN} += "already-stripped"
RDEPENDS:${PN} = "glibc"
COMPATIBLE_HOST = "(x86_64|aarch64).*-linux"

inherit systemd

SYSTEMD_SERVICE:${PN} = "update-boot.service"
SYSTEMD_AUTO_ENABLE = "enable"

do_install() {
    sh ${SOURCE}/tools/packaging/install.sh ${RELEASE} ${D}
}

FILES:${PN} += "${libdir}/update-client ${systemd_system_unitdir} ${nonarch_libdir}/tmpfiles.d"
