// Node's own modules, of whose types the type checker of Debian's packages knows nothing.
declare module "node:*";
declare const process: { exit(status?: number): never; [name: string]: any };
declare const Buffer: any;
