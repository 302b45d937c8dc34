/** The one DER encoding of a CMS signed message, or of a request or a response of time-stamping, and what is in it. */
module cmscanon {
    requires com.sun.jna;

    exports cmscanon;

    opens cmscanon to
            com.sun.jna;
}
